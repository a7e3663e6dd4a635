//! Hand-written cases for recordings, `50`. A captured byte takes fifteen
//! characters of a line, so that each recording is as short as it can be.

use super::{own, story};
use crate::case::{bytes, damaged, packet, Case};
use crate::hex;
use crate::kind::{gates, Kind};
use crate::layout;
use crate::recording::{Capture, Recording};

/// The walk's Set Address for nodes 1 and 2.
pub const FIRST: &str = "AA 00 21 01 FF 21";
pub const SECOND: &str = "AA 00 21 02 FF 22";

/// A Nop to node 1, and replies.
const NOP: &str = "AA 01 0E 0F";
pub const CLEAR: &str = "00 00";
const MARKED: &str = "02 02";

/// Bytes that come at one time.
pub type Run<'a> = (u32, &'a str);

/// `50` of gates, the runs of both lines.
fn walk(nodes: u8, commands: &[Run], replies: &[Run]) -> String {
    walk_of(&gates(usize::from(nodes)), commands, replies)
}

/// The same of nodes of these kinds.
pub fn walk_of(kinds: &[Kind], commands: &[Run], replies: &[Run]) -> String {
    line_of(kinds, captured(commands), captured(replies))
}

fn captured(runs: &[Run]) -> Capture {
    let mut capture = Capture::default();
    for (time, run) in runs {
        let run = bytes(run);
        capture.times.extend(vec![*time; run.len()]);
        capture.bytes.extend(run);
    }
    capture
}

/// `50`, bytes and times by themselves.
fn timed(nodes: u8, commands: (&str, &[u32]), replies: (&str, &[u32])) -> String {
    let captured = |(line, times): (&str, &[u32])| Capture {
        bytes: bytes(line),
        times: times.to_vec(),
    };
    let kinds = gates(usize::from(nodes));
    line_of(&kinds, captured(commands), captured(replies))
}

fn line_of(kinds: &[Kind], commands: Capture, replies: Capture) -> String {
    let recording = Recording {
        nodes: kinds.len() as u8,
        kinds: kinds.to_vec(),
        commands,
        replies,
    };
    hex::format(&[vec![0x50], layout::recording(&recording)].concat())
}

pub fn cases() -> Vec<Case> {
    vec![
        Case::new("recordings: refused", refused()),
        Case::new("recordings: nothing captured", empty()),
        Case::new("recordings: gaps", gaps()),
        Case::new("recordings: at equal times", equal_times()),
        Case::new("recordings: replies that nobody waits for", stray()),
        Case::new("recordings: in the walk, not the host's", foreign_in_walk()),
        Case::new(
            "recordings: when ready, not the host's",
            foreign_when_ready(),
        ),
        Case::new("recordings: every command", every_command()),
        Case::new("recordings: the session stays", session_stays()),
        Case::new("recordings: lines of the wrong form", wrong_forms()),
    ]
}

/// "6 for the node count, then 15 .., then 16", in either capture.
fn refused() -> Vec<String> {
    let none = ("", &[][..]);
    let falling = ("00 00", &[1, 0][..]);
    vec![
        timed(0, none, none),
        timed(32, none, none),
        timed(1, ("AA", &[]), none),
        timed(1, none, ("00", &[])),
        timed(1, falling, none),
        timed(1, none, falling),
        timed(1, none, ("00 00", &[u32::MAX, 0])),
        // 6 before 15 and 16, 15 before 16, whichever capture.
        timed(0, ("AA", &[]), none),
        timed(0, none, falling),
        timed(1, ("", &[1, 0]), none),
        timed(1, falling, ("", &[0])),
        timed(1, ("AA", &[]), falling),
        timed(1, ("AA AA", &[0x0100, 0x00FF]), none),
        timed(1, ("AA AA", &[0x8000_0000, 0x7FFF_FFFF]), none),
    ]
}

/// "The record of power-up."
fn empty() -> Vec<String> {
    [1, 31].map(|nodes| walk(nodes, &[], &[])).to_vec()
}

/// Gaps of 1 ms and of 2, in commands, in replies and between them. The first
/// reply starts before its command ends.
fn gaps() -> Vec<String> {
    vec![
        timed(1, (FIRST, &[7, 8, 9, 10, 11, 12]), ("00 00", &[10, 11])),
        // A command with a gap inside; two without one between them.
        walk(1, &[(0, "AA 00 21 01"), (2, "FF 21")], &[]),
        walk(1, &[(0, FIRST), (1, NOP)], &[]),
        // A reply with a gap inside: silence, and the rest without effect.
        walk(1, &[(0, FIRST)], &[(1, "00"), (3, CLEAR)]),
        // Times about their middle and at their end.
        timed(1, ("", &[]), ("00 00", &[0x7FFF_FFFF, 0x8000_0000])),
        timed(1, ("", &[]), ("00 00", &[0xFFFF_FFFD, 0xFFFF_FFFF])),
    ]
}

/// The reply counts for the later command, an ask, and the earlier is silent.
fn equal_times() -> Vec<String> {
    vec![walk(2, &[(0, FIRST), (2, NOP)], &[(2, CLEAR)])]
}

/// Before any command, and a second one; a reply that isn't clear, after which
/// the command is sent again and waits at the end.
fn stray() -> Vec<String> {
    vec![walk(
        1,
        &[(1, FIRST), (9, FIRST)],
        &[(0, "00"), (2, MARKED), (4, CLEAR)],
    )]
}

/// A wrong sum, a cut packet, one without header, a byte left over, another
/// address, a Nop and a Hard Reset amid the walk; and what document 01 rules
/// out: Set Address to 0x00 again after silence.
fn foreign_in_walk() -> Vec<String> {
    let left_over = format!("{FIRST} 00");
    vec![
        walk(1, &[(0, &damaged("00 21 01 FF"))], &[]),
        walk(1, &[(0, "AA 00 21")], &[]),
        walk(1, &[(0, "00")], &[]),
        walk(1, &[(0, &left_over)], &[]),
        walk(2, &[(0, SECOND)], &[]),
        walk(1, &[(0, NOP)], &[(0, "00")]),
        walk(1, &[(0, &packet("FF 0F"))], &[]),
        walk(1, &[(0, FIRST), (2, FIRST)], &[]),
    ]
}

/// 10; Set Address to a group, with another address, at 0x00; another command;
/// a leader wish that 11 refuses.
fn foreign_when_ready() -> Vec<String> {
    let mut lines: Vec<String> = ["02 0E", "FF 21 01 FF", "01 21 02 FF", "01 1A 3F"]
        .into_iter()
        .map(|parts| walk(1, &[(0, FIRST), (2, &packet(parts))], &[(0, CLEAR)]))
        .collect();
    lines.push(walk(
        2,
        &[
            (0, FIRST),
            (2, SECOND),
            (4, &packet("01 21 01 00")),
            (6, &packet("02 21 02 00")),
        ],
        &[(0, CLEAR), (2, CLEAR), (4, CLEAR)],
    ));
    lines
}

/// All eleven, most of them silent, some to the group, which has no leader known
/// to confirm for although a reply comes; behind the Hard Reset a reply and a
/// command.
fn every_command() -> Vec<String> {
    let parts = [
        "01 12 41",
        "01 13 BE",
        "FF 24 31 32",
        "01 05",
        "01 26 FF 91",
        "FF 47 C1 C2 43 44",
        "01 18 CD",
        "01 0C",
        "FF 0E",
        "01 21 01 00",
        "01 0F",
        "01 0E",
    ];
    let sent: Vec<String> = parts.iter().map(|parts| packet(parts)).collect();
    let mut commands = vec![(0, FIRST)];
    commands.extend(
        (1..)
            .zip(&sent)
            .map(|(place, own)| (2 * place, own.as_str())),
    );
    vec![walk(1, &commands, &[(0, CLEAR), (6, CLEAR), (22, CLEAR)])]
}

/// "The session of `30` to `38` isn't touched."
fn session_stays() -> Vec<String> {
    let walked = walk(1, &[], &[]);
    story(&format!("30 02 00 00; 31 06 3F; {walked}; 35 00 00; 37"))
}

/// Cut short, with more than 1024 bytes or times, with a byte too many.
fn wrong_forms() -> Vec<String> {
    own(&[
        "50",
        "50 01 00 00 00 00 00 00 00 00",
        "50 01 02 00 00 00 00 00 00 00 00",
        "50 01 00 00 00 00 00 00 00 00 00 00",
        "50 01 00 01 00 AA 01 00 00 00 00",
        "50 01 00 01 04 00 00 00 00 00 00",
        "50 01 00 00 00 01 04 00 00 00 00",
        "50 01 00 00 00 00 00 01 04 00 00",
        "50 01 00 00 00 00 00 00 00 01 04",
    ])
}
