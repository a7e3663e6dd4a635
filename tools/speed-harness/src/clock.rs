//! The time that this thread has had of the processor: what other programs on
//! the machine take of it does not count.

use std::time::Duration;

#[repr(C)]
struct Time {
    seconds: i64,
    nanoseconds: i64,
}

extern "C" {
    fn clock_gettime(clock: i32, time: *mut Time) -> i32;
}

/// Linux's number for the clock of the thread that asks.
const THREAD_CLOCK: i32 = 3;

pub fn now() -> Duration {
    let mut time = Time {
        seconds: 0,
        nanoseconds: 0,
    };
    // SAFETY: it writes the one struct that it is given, which has its form on
    // 64-bit Linux.
    let failed = unsafe { clock_gettime(THREAD_CLOCK, &mut time) };
    assert_eq!(
        failed, 0,
        "this needs a clock for each thread, as Linux has it"
    );
    Duration::new(time.seconds as u64, time.nanoseconds as u32)
}
