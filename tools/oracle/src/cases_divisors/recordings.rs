//! Hand-written cases for recordings, `50`, that Set Baud Rate ends.

use crate::case::{packet, Case};
use crate::cases_trials::recordings::{walk_of, CLEAR, FIRST, SECOND};
use crate::kind::Kind;

pub fn cases() -> Vec<Case> {
    vec![Case::new("divisors: Set Baud Rate in recordings", ended())]
}

/// To a group, listed and not, to the divisor that all have; to a node; with another
/// count; amid the walk; while a command waits; of a drive. What follows isn't looked
/// at. A Nop, and a Hard Reset, leave nothing else than they did.
fn ended() -> Vec<String> {
    let one_gate = [Kind::Gate];
    let mut lines: Vec<String> = [
        "FF 1A 0A",
        "FF 1A 3F",
        "FF 1A 55",
        "01 1A 0A",
        "FF 2A 0A 0A",
    ]
    .into_iter()
    .map(|parts| walk_of(&one_gate, &[(0, FIRST), (2, &packet(parts))], &[(0, CLEAR)]))
    .collect();
    let (pace, nop) = (packet("FF 1A 0A"), packet("01 0E"));
    let (outputs, reset) = (packet("01 26 07 00"), packet("FF 0F"));
    let both = [Kind::Gate, Kind::Drive];
    lines.extend([
        walk_of(&one_gate, &[(0, &pace)], &[]),
        walk_of(
            &one_gate,
            &[(0, FIRST), (2, &outputs), (4, &pace), (6, &nop)],
            &[(0, CLEAR), (5, CLEAR)],
        ),
        walk_of(
            &both,
            &[(0, FIRST), (2, SECOND), (4, &pace)],
            &[(0, CLEAR), (2, CLEAR)],
        ),
        walk_of(
            &one_gate,
            &[(0, FIRST), (2, &nop), (4, &reset)],
            &[(2, CLEAR)],
        ),
    ]);
    lines
}
