//! The oracle's own tests.

mod divisors;
mod drives;
mod examples;
mod mistakes;
mod programs;
mod properties;
mod recordings;
mod replay;
mod sheets;
mod shows;
mod stored;

use crate::rules::Rules;
use crate::trials::Trials;

/// The answers of the right `trials` program to lines.
fn answers(lines: &[&str]) -> Vec<String> {
    let mut trials = Trials::new(Rules::RIGHT);
    lines
        .iter()
        .map(|line| trials.answer(line.as_bytes()))
        .collect()
}

/// The right answer to the last of some lines.
fn last_answer(lines: &[&str]) -> String {
    answers(lines).pop().expect("at least one line")
}

/// The FNV-1a hash.
fn fingerprint(bytes: &[u8]) -> u64 {
    bytes.iter().fold(0xCBF2_9CE4_8422_2325, |hash, byte| {
        (hash ^ u64::from(*byte)).wrapping_mul(0x0000_0100_0000_01B3)
    })
}
