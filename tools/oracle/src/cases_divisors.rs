//! Hand-written cases for the program `divisors`, which answers the lines that
//! `trials` does: those of divisors (request 7), and sessions handed in, in which
//! something waits, of gates and of drives.

mod chain;
mod host;
mod recordings;

use crate::case::Case;
use crate::cases_trials::own;
use crate::{cases_carousels, cases_trials};

/// The cases in order.
pub fn cases() -> Vec<Case> {
    let mut cases = chain::cases();
    cases.extend(host::cases());
    cases.extend(host::handed_in_cases());
    cases.extend(recordings::cases());
    cases.push(Case::new(
        "divisors: lines of the wrong form",
        own(&WRONG_FORMS),
    ));
    cases.extend(cases_trials::host::handed_in_waiting_cases());
    cases.extend(cases_carousels::host::handed_in_cases());
    cases
}

/// Lines that answer FF: without the divisor, or with a byte too many; a room above
/// 40; Set Baud Rate among a ready session's commands, of either family, to a node and
/// to a group, with another count.
const WRONG_FORMS: [&str; 22] = [
    "20 04 3F",
    "20 04 3F 01 00",
    "30 01 00",
    "31 06 3F",
    "35 00 00",
    "31 06",
    "32 04",
    "33 04 00 01 00 0E",
    "34 06 01 80 01",
    "39",
    "39 05",
    "39 05 3F",
    "39 05 3F FF",
    "39 05 3F FF 0A 00",
    "39 41 3F FF 0A",
    "33 05 3F 00 01 00 1A 0A",
    "33 05 3F 01 FF 00 1A 0A",
    "33 05 3F 01 FF 01 1A 0A",
    "33 04 3F 01 FF 00 0A",
    "33 06 3F 01 FF 00 2A 0A 0A",
    "3A 05 3F FF 0A",
    "37",
];
