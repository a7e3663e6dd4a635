//! Hand-written cases for recordings, `50`, with drives.

use crate::case::{packet, Case};
use crate::cases_trials::own;
use crate::cases_trials::recordings::{walk_of, CLEAR, FIRST, SECOND};
use crate::kind::Kind;

const ONE_DRIVE: [Kind; 1] = [Kind::Drive];
const BOTH: [Kind; 2] = [Kind::Gate, Kind::Drive];

pub fn cases() -> Vec<Case> {
    vec![
        Case::new("recordings of drives: every command", every_command()),
        Case::new("recordings of both kinds: shared bytes", shared_bytes()),
        Case::new("recordings of drives: not the host's", foreign()),
        Case::new("recordings of drives: kinds", kinds()),
    ]
}

/// A drive's walk, and then these commands from their parts, all silent but for
/// some.
fn after_walk(parts: &[&str], replied: &[u32]) -> String {
    let sent: Vec<String> = parts.iter().map(|parts| packet(parts)).collect();
    let times = (1..).map(|place| 2 * place);
    let mut commands = vec![(0, FIRST)];
    commands.extend(times.zip(sent.iter().map(String::as_str)));
    let mut replies = vec![(0, CLEAR)];
    replies.extend(replied.iter().map(|time| (*time, CLEAR)));
    walk_of(&ONE_DRIVE, &commands, &replies)
}

/// All ten; the load of a velocity has no reply, so that its copy is in doubt once
/// the motion is started.
fn every_command() -> Vec<String> {
    let parts = [
        "01 00",
        "01 E6 64 00 00 04 00 00 00 00 FF 00 00 08 01 00",
        "01 17 05",
        "01 54 11 00 28 00 00",
        "01 54 32 25 06 01 00",
        "01 05",
        "FF 24 98 40",
        "01 57 10 FF FF FF FF",
        "01 12 80",
        "01 13 FF",
        "01 0E",
        "01 21 01 00",
        "01 0F",
    ];
    vec![after_walk(&parts, &[4, 6, 8, 12])]
}

/// 05 and 24 are a gate's to a gate, a drive's to a drive; to a group that nobody
/// may be in, either; to a group of both, nobody's.
fn shared_bytes() -> Vec<String> {
    let walk = [(0, FIRST), (2, SECOND)];
    let replies = [(0, CLEAR), (2, CLEAR), (6, CLEAR), (8, CLEAR)];
    let sent: Vec<String> = ["01 24 18 40", "02 24 18 40", "02 05", "A0 05", "FF 05"]
        .iter()
        .map(|parts| packet(parts))
        .collect();
    let times = (2..).map(|place| 2 * place);
    let commands: Vec<(u32, &str)> = walk
        .into_iter()
        .chain(times.zip(sent.iter().map(String::as_str)))
        .collect();
    vec![walk_of(&BOTH, &commands, &replies)]
}

/// Ended by a gate's command, by 24 with another low nibble than 8, by another
/// count, by values off their ranges; and at a gate by a drive's.
fn foreign() -> Vec<String> {
    let mut lines: Vec<String> = [
        "01 26 05 00",
        "01 24 00 40",
        "01 94 37 25 06 01 00 58 01 00 00",
        "01 54 01 00 00 00 80",
        "01 17 06",
        "01 21 00 FF",
        "A0 17 06",
    ]
    .into_iter()
    .map(|parts| after_walk(&[parts], &[]))
    .collect();
    let to_gate = packet("01 17 05");
    lines.push(walk_of(
        &[Kind::Gate],
        &[(0, FIRST), (2, &to_gate)],
        &[(0, CLEAR)],
    ));
    lines
}

/// 6 whatever the kinds; a drive's record of power-up; forms.
fn kinds() -> Vec<String> {
    let mut lines = vec![
        walk_of(&[], &[], &[]),
        walk_of(&[Kind::Drive; 32], &[], &[]),
        walk_of(&[Kind::Gate, Kind::Drive, Kind::Drive], &[], &[]),
    ];
    lines.extend(own(&[
        "50 02 01 00 00 00 00 00 00 00 00",
        "50 01 02 00 00 00 00 00 00 00 00",
        "50 01 01 01 00 00 00 00 00 00 00 00",
    ]));
    lines
}
