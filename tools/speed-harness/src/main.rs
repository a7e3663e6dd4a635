//! Times the proved code beside Rust: `tools/speed` builds and runs this.
//!
//!     harness PART..                 checks, times and counts; prints the tables.
//!                                    A part is bench, sheets or recordings
//!     harness count KIND SIZE SIDE   one pass of one side, for callgrind

mod check;
mod check_recording;
mod check_sheet;
mod clock;
mod ours;
mod plain;
mod plain_recording;
mod plain_sheet;
mod sides;
mod work;
mod work_recording;

use std::process::{Command, ExitCode};

use sides::{Kind, Side, BENCH, RECORDINGS, SHEETS};

/// The seed of all that is timed.
pub const SEED: u64 = 773;

/// Passes of each side, by turns.
const ROUNDS: usize = 41;

/// The packets, rehearsals, sheets and recordings that are compared before anything
/// is timed.
const CHECKED: usize = 200_000;
const CHECKED_TEXTS: u64 = 100;
const CHECKED_SHEETS: u64 = 20_000;
const CHECKED_RECORDINGS: u64 = 20_000;

/// Ours takes so many times as long as that side, and runs so many times as
/// many instructions.
const HEAD: &str = "\
| Nodes | Side                    | Packets/s | ns/packet | Ours takes | Instructions/packet | Ours runs |
|------:|-------------------------|----------:|----------:|-----------:|--------------------:|----------:|";
const BYTE_HEAD: &str = "\
| KiB | Side | MB/s | ns/byte | Ours takes | Instructions/byte | Ours runs |
|----:|------|-----:|--------:|-----------:|------------------:|----------:|";

fn main() -> ExitCode {
    let arguments: Vec<String> = std::env::args().skip(1).collect();
    let words: Vec<&str> = arguments.iter().map(String::as_str).collect();
    let done = match words[..] {
        ["count", kind, size, name] => run_one(kind, size, name),
        _ => compare(&words),
    };
    match done {
        Ok(()) => ExitCode::SUCCESS,
        Err(why) => {
            eprintln!("speed: {why}");
            ExitCode::FAILURE
        }
    }
}

/// Checks, times, counts and prints.
fn compare(parts: &[&str]) -> check::Outcome {
    for part in parts {
        let what = match *part {
            BENCH => {
                check::all(CHECKED, CHECKED_TEXTS)?;
                format!("{CHECKED} seeded packets and {CHECKED_TEXTS} seeded rehearsals")
            }
            SHEETS => {
                check_sheet::all(CHECKED_SHEETS)?;
                format!("{CHECKED_SHEETS} seeded sheets and lists of packets")
            }
            RECORDINGS => {
                check_recording::all(CHECKED_RECORDINGS)?;
                format!("{CHECKED_RECORDINGS} seeded recordings")
            }
            _ => return Err(format!("there is no part '{part}'")),
        };
        println!("All sides answer alike, byte for byte, on {what} and all that is timed.");
    }
    for kind in Kind::ALL
        .into_iter()
        .filter(|kind| parts.contains(&kind.part()))
    {
        let head = if kind.has_bytes() { BYTE_HEAD } else { HEAD };
        println!("\n{}\n\n{head}", kind.heading());
        for size in kind.sizes() {
            print_rows(kind, *size);
        }
    }
    println!(
        "\nMedians of {ROUNDS} rounds, the sides by turns, on {}.",
        std::env::consts::ARCH
    );
    Ok(())
}

/// A row for each side of a chain's length, a sheet's or a recording's.
fn print_rows(kind: Kind, size: usize) {
    let mut sides = kind.sides(size);
    let rounds = time(&mut sides);
    let counts: Vec<Option<f64>> = (sides.iter())
        .map(|side| instructions(kind, size, side))
        .collect();
    for (index, side) in sides.iter().enumerate() {
        let time = median(rounds.iter().map(|round| round[index]).collect());
        let longer = median(rounds.iter().map(|round| round[0] / round[index]).collect());
        let count = counts[index];
        let more = counts[0].zip(count).map(|(ours, its)| ours / its);
        let more = more.map_or("-".to_string(), |more| format!("{more:.2}"));
        let (name, rate) = (side.name, 1e3 / time);
        if kind.has_bytes() {
            let count = count.map_or("-".to_string(), |count| format!("{count:.1}"));
            println!(
                "| {size:3} | {name:<4} | {rate:4.0} | {time:7.2} | {longer:10.2} | {count:>17} | {more:>9} |"
            );
        } else {
            let count = count.map_or("-".to_string(), |count| format!("{count:.0}"));
            println!(
                "| {size:5} | {name:<23} | {rate:7.2} M | {time:9.0} | {longer:10.2} | {count:>19} | {more:>9} |"
            );
        }
    }
}

/// Nanoseconds per packet or byte of each side, in each round. The first round is for
/// getting warm.
fn time(sides: &mut [Side]) -> Vec<Vec<f64>> {
    let mut round = || -> Vec<f64> {
        (sides.iter_mut())
            .map(|side| {
                let start = clock::now();
                (side.pass)();
                (clock::now() - start).as_nanos() as f64 / side.amount as f64
            })
            .collect()
    };
    round();
    (0..ROUNDS).map(|_| round()).collect()
}

fn median(mut numbers: Vec<f64>) -> f64 {
    numbers.sort_by(f64::total_cmp);
    numbers[numbers.len() / 2]
}

/// Instructions per packet or byte of one pass, counted by callgrind; None where it
/// is not there.
fn instructions(kind: Kind, size: usize, side: &Side) -> Option<f64> {
    let harness = std::env::current_exe().ok()?;
    let file = harness.with_file_name("callgrind.out");
    let run = Command::new("valgrind")
        .args(["--tool=callgrind", "--toggle-collect=measured"])
        .arg(format!("--callgrind-out-file={}", file.display()))
        .arg(&harness)
        .args(["count", kind.word(), &size.to_string(), side.name])
        .output()
        .ok()?;
    let said = String::from_utf8_lossy(&run.stderr).into_owned();
    let collected = said
        .lines()
        .find_map(|line| line.split("Collected :").nth(1))?;
    Some(collected.trim().parse::<f64>().ok()? / side.amount as f64)
}

/// One pass of one side, for callgrind.
fn run_one(kind: &str, size: &str, name: &str) -> check::Outcome {
    let kind = (Kind::ALL.into_iter())
        .find(|own| own.word() == kind)
        .ok_or("no such kind")?;
    let size = size.parse().map_err(|_| "no such size")?;
    let mut side = (kind.sides(size).into_iter())
        .find(|side| side.name == name)
        .ok_or("no such side")?;
    measured(&mut *side.pass);
    Ok(())
}

/// What callgrind counts.
#[no_mangle]
#[inline(never)]
fn measured(pass: &mut dyn FnMut()) {
    pass();
}
