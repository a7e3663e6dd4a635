//! The stored cases: hand-written ones with a name each, and for the bench then
//! a generated block with a fixed seed. Within what each program reads.

use crate::bench::Bench;
use crate::case::Case;
use crate::cases_bench;
use crate::cases_carousels;
use crate::cases_divisors;
use crate::cases_trials;
use crate::hex;
use crate::make_bench;
use crate::prng::Prng;
use crate::rules::Rules;

/// The most stored input for one program.
pub const MOST_STORED: usize = hex::MOST_INPUT;

/// What each stored input of the lines of `trials` leaves free at least, for the cases
/// of requests to come.
pub const LEFT_FREE: usize = 4096;

/// The most lines of the generated block, and its seed.
const BENCH_LINES: usize = 1500;
const SEED: u64 = 773;

/// The nodes of the stored bench input.
const BENCH_NODES: u8 = 5;

fn text(cases: &[Case]) -> Vec<u8> {
    let lines = cases.iter().flat_map(|case| &case.lines);
    lines
        .flat_map(|line| format!("{line}\n").into_bytes())
        .collect()
}

/// Names for every line of an input: its hand-written case, or "generated".
#[cfg(test)]
pub fn line_names(cases: &[Case], lines: usize) -> Vec<String> {
    let mut names: Vec<String> = cases
        .iter()
        .flat_map(|case| vec![case.name.clone(); case.lines.len()])
        .collect();
    names.resize(lines, "generated".to_string());
    names
}

/// The stored bench input: one chain for all of its lines, hand-written ones, then
/// generated ones, then those that set a divisor. The last line lacks its newline.
pub fn bench() -> Vec<u8> {
    let mut input = format!("{BENCH_NODES}\n").into_bytes();
    let hand_written = text(&cases_bench::cases());
    let mut bench = Bench::new(Rules::RIGHT, usize::from(BENCH_NODES));
    for line in hex::lines(&hand_written) {
        bench.answer(line);
    }
    input.extend(hand_written);
    let last = cases_bench::full_speed().join("\n");
    let room = MOST_STORED - input.len() - last.len() - further_bench_bytes();
    let mut prng = Prng::new(SEED);
    input.extend(make_bench::packet_lines(
        &mut prng,
        &mut bench,
        BENCH_LINES,
        room,
    ));
    input.extend(last.into_bytes());
    input
}

fn further_bench_bytes() -> usize {
    let inputs = cases_bench::further_inputs();
    inputs.iter().map(|(_, input)| input.len()).sum()
}

/// The stored trials input, all of it hand-written. The last line lacks its
/// newline.
pub fn trials() -> Vec<u8> {
    let mut input = text(&cases_trials::cases());
    input.pop();
    input
}

/// The stored input of `carousels`, which answers the lines that `trials` does: all
/// of it hand-written, too, and its last line lacks its newline.
pub fn carousels() -> Vec<u8> {
    let mut input = text(&cases_carousels::cases());
    input.pop();
    input
}

/// The stored input of `divisors`, likewise.
pub fn divisors() -> Vec<u8> {
    let mut input = text(&cases_divisors::cases());
    input.pop();
    input
}
