//! Hand-written cases for the program `carousels`, which answers the lines that
//! `trials` does: those of drives, alone and beside gates (request 6). Sessions that
//! are handed in are among those of `cases_divisors`.

pub mod chain;
pub mod host;
mod recordings;

use crate::case::Case;
use crate::cases_trials::{drive_manuals_read, own, printed_status};
use crate::kind::Kind;

/// The cases in order.
pub fn cases() -> Vec<Case> {
    let mut cases = drive_manuals_read();
    cases.push(Case::new("drives: status packets", status_packets()));
    cases.extend(chain::cases());
    cases.extend(host::cases());
    cases.extend(recordings::cases());
    cases.push(Case::new("drives: lines of the wrong form", wrong_forms()));
    cases
}

/// 000's own, then every mask bit with its bytes and with one less and one more;
/// bit 7 stands for no item.
fn status_packets() -> Vec<String> {
    let mut lines = printed_status(Kind::Drive);
    for (bit, bytes) in [4, 1, 2, 1, 4, 2, 2, 0].into_iter().enumerate() {
        let mask = 1u8 << bit;
        for count in bytes - usize::from(bytes > 0)..=bytes + 1 {
            let items = " 00".repeat(count);
            lines.push(format!("12 01 {mask:02X} 09{items} 09"));
        }
    }
    lines.extend(own(&[
        "12 01 FF FF 01 02 03 04 05 06 07 08 09 0A 0B 0C 0D 0E 0F 10 87",
        "12 01 FF FF 01 02 03 04 05 06 07 08 09 0A 0B 0C 0D 0E 0F 10 11 98",
        "12 01 7F FF 01 02 03 04 05 06 07 08 09 0A 0B 0C 0D 0E 0F 10 88",
        "12 01 84 00 01 02 03",
        "12 01 00 02 02",
    ]));
    lines
}

/// Lines that answer FF: a KIND or FAMILY that is none, another number of kinds
/// than n, a drive's record that is a byte short; FAMILY 01 with a shared command, with a gate's, with another count than
/// control or stop byte make, with a tenth byte; FAMILY 00 with a drive's.
fn wrong_forms() -> Vec<String> {
    let mut lines = vec![
        format!("20 04 3F 01 02{} AA 00 0E 0E", " 00".repeat(31)),
        format!("20 04 3F 01 01{}", " 00".repeat(63)),
    ];
    lines.extend(own(&[
        "12 02 00 00 00",
        "30 02 01",
        "30 02 01 00 01",
        "30 01 02",
        "33 05 3F 00 01 02 05",
        "33 05 3F 00 01 01 12 00",
        "33 05 3F 00 01 01 13 00",
        "33 04 3F 00 01 01 0E",
        "33 04 3F 00 01 01 0F",
        "33 06 3F 00 01 01 21 01 FF",
        "33 04 3F 00 01 01 0C",
        "33 04 3F 00 01 01 0B",
        "33 05 3F 00 01 01 19 18",
        "33 05 3F 00 01 01 18 01",
        "33 05 3F 00 01 01 10 00",
        "33 05 3F 00 01 01 15 00",
        "33 06 3F 00 01 01 24 01 00",
        "33 06 3F 00 01 01 24 18",
        "33 06 3F 00 01 01 24 18 00 00",
        "33 04 3F 00 01 01 04",
        "33 09 3F 00 01 01 54 00 00 00 00 00",
        "33 09 3F 00 01 01 54 03 00 00 00 00",
        "33 0D 3F 00 01 01 94 37 25 06 01 00 58 01 00 00",
        "33 06 3F 00 01 01 26 05 00",
        "33 13 3F 00 01 01 E6 64 00 00 04 00 00 00 00 FF 01 00 08 01 00",
        "33 12 3F 00 01 01 D6 64 00 00 04 00 00 00 00 FF 00 00 08 01",
        "33 05 3F 00 01 01 17 11",
        "33 09 3F 00 01 01 57 05 00 00 00 00",
        "33 06 3F 00 01 01 27 05 00",
        "33 04 3F 00 01 01 07",
        "33 04 3F 00 01 00 00",
        "33 05 3F 00 01 00 14 80",
        "33 09 3F 00 01 00 54 11 00 28 00 00",
        "33 05 3F 00 01 00 17 05",
        "33 13 3F 00 01 00 E6 64 00 00 04 00 00 00 00 FF 00 00 08 01 00",
        "37",
    ]));
    lines
}
