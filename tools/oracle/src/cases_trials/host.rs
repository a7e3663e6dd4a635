//! Hand-written cases for the host's calls, `30` to `38`.

use super::story;
use crate::case::Case;
use crate::command::{Command, Place};
use crate::divisor::POWER_UP;
use crate::hex;
use crate::layout;
use crate::rules::Rules;
use crate::session::{Exchange, Session};
use crate::target::Target;

/// `30`, all of them gates.
fn power_up(n: u8) -> String {
    format!("30 {n:02X}{}", " 00".repeat(usize::from(n)))
}

/// A session of n gates made ready.
fn ready(n: u8) -> Vec<String> {
    let mut lines = vec![power_up(n)];
    for _ in 0..n {
        lines.extend(story("31 06 3F; 35 00 00"));
    }
    lines
}

/// A case that starts ready.
fn when_ready(name: &str, n: u8, lines: &str) -> Case {
    Case::new(name, [ready(n), story(lines)].concat())
}

/// The record examples of document 01, "n = 2, ready".
pub fn document_records() -> Vec<Case> {
    vec![
        when_ready(
            "document 01: outputs silent, then sent again",
            2,
            "33 06 3F 00 02 00 26 05 00; 36; 37; 33 06 3F 00 02 00 26 05 00; 35 00 00; 37",
        ),
        when_ready(
            "document 01: reply 02 02",
            2,
            "33 06 3F 00 02 00 26 05 00; 35 02 02; 37",
        ),
        when_ready(
            "document 01: reply 02 03",
            2,
            "33 06 3F 00 02 00 26 05 00; 35 02 03; 37",
        ),
        when_ready(
            "document 01: held set silent, then Synch Output",
            2,
            "33 08 3F 00 02 00 47 07 01 80 AA; 36; 37; 33 04 3F 00 02 00 05; 35 00 00; 37",
        ),
        when_ready(
            "document 01: node 1 leads 0x80",
            2,
            "34 06 3F 01 80 01; 35 00 00; 34 06 3F 02 80 01; 34 06 3F 02 80 00; 35 00 00; 37",
        ),
        Case::new(
            "document 01: first next silent",
            story("30 02 00 00; 31 06 3F; 36; 37; 31 06 3F; 32 04 3F; 35 00 00; 37"),
        ),
    ]
}

pub fn cases() -> Vec<Case> {
    let mut cases = walk_cases();
    cases.extend(order_cases());
    cases.extend(reply_cases());
    cases.extend(doubt_cases());
    cases.extend(leader_cases());
    cases.extend(ending_cases());
    cases
}

fn walk_cases() -> Vec<Case> {
    vec![
        Case::new(
            "walk: marked replies and asks",
            story(
                "30 03 00 00 00; 32 04 3F; 31 06 3F; 35 02 02; 37; 32 04 3F; 31 06 3F; 35 00 01; 31 06 3F; 32 04 3F; 36; \
             32 04 3F; 35 02 02; 31 06 3F; 37; 32 04 3F; 35 00 00; 37; 31 06 3F; 35 FD FD; 32 04 3F; 31 06 3F; \
             35 00 00; 31 06 3F; 32 04 3F; 37",
            ),
        ),
        Case::new("walk: 31 nodes", ready(31)),
        Case::new(
            "walk: rooms",
            story("30 01 00; 31 05 3F; 31 00 3F; 37; 31 40 3F; 36; 32 03 3F; 32 00 3F; 32 04 3F; 35 00 00; 37"),
        ),
    ]
}

/// Host order: 12, 7, 6, 10, 9, 11, 5.
fn order_cases() -> Vec<Case> {
    vec![
        Case::new(
            "order: bad power-ups, then powered up anew",
            story(&format!(
                "30 02 00 00; 31 06 3F; 30 00; {}; 37; 35 00 00; 31 06 3F; {}; 37; 35 00 00; 36",
                power_up(32),
                power_up(31)
            )),
        ),
        when_ready(
            "order: closed comes first",
            1,
            "33 04 3F 00 01 00 0F; 33 00 3F 01 05 00 0E; 33 00 3F 00 09 00 0E; 34 00 3F 09 05 01; 31 00 3F; 32 00 3F; \
             35 00 00; 36; 37",
        ),
        when_ready(
            "order: an open exchange comes next",
            1,
            "33 04 3F 00 01 00 0E; 33 00 3F 01 05 00 0E; 33 00 3F 00 09 00 0E; 34 00 3F 09 05 01; 31 00 3F; 32 00 3F; \
             37; 35 00 00; 35 00 00; 36",
        ),
        Case::new(
            "order: while walking",
            story(
                "30 02 00 00; 33 00 3F 01 05 00 0E; 33 00 3F 01 80 00 0E; 33 00 3F 00 00 00 0E; 33 00 3F 00 03 00 0E; \
             33 00 3F 00 02 00 0E; 34 00 3F 28 05 01; 34 00 3F 28 80 01; 34 00 3F 02 80 01; 32 00 3F; 31 00 3F; \
             31 06 3F; 36; 31 00 3F; 32 00 3F; 37",
            ),
        ),
        when_ready(
            "order: when ready",
            2,
            "31 00 3F; 32 00 3F; 33 00 3F 01 7F 00 0E; 33 00 3F 00 00 00 0E; 33 00 3F 00 03 00 0E; 34 00 3F 03 7F 01; \
             34 00 3F 03 80 01; 34 06 3F 01 80 01; 35 00 00; 34 00 3F 02 80 01; 34 05 3F 02 81 01; \
             33 03 3F 00 01 00 0E; 33 05 3F 01 FF 00 26 05 00; 33 03 3F 00 01 00 0F; 37",
        ),
    ]
}

/// "Good if it has 2 to T + 2 bytes and its sum is right; clear if bit 1 is 0."
fn reply_cases() -> Vec<Case> {
    vec![
        when_ready(
            "replies: lengths and bits",
            1,
            "33 05 3F 00 01 00 18 33; 35; 37; 33 05 3F 00 01 00 18 33; 35 00; 37; 33 05 3F 00 01 00 18 33; \
             35 FD 01 02 03 04 05 06 07 08 09 0A 0B 0C 0D 0E 0F 10 11 96; 37; \
             33 05 3F 00 01 00 18 44; \
             35 00 01 02 03 04 05 06 07 08 09 0A 0B 0C 0D 0E 0F 10 11 12 AB; 37; \
             33 05 3F 00 01 00 18 44; 35 FD FD; 37; 33 05 3F 00 01 00 18 33; 35 FF FF; 37; \
             33 05 3F 00 01 00 18 33; 35 00 01; 37; 33 05 3F 00 01 00 18 33; 35 00 00; 37; \
             33 05 3F 00 01 00 18 44; 35 02 00; 37",
        ),
        when_ready(
            "replies: commands that write nothing",
            2,
            "33 05 3F 00 01 00 13 FF; 36; 33 04 3F 00 01 00 0E; 36; 33 04 3F 01 FF 00 0C; 36; 37; \
             33 04 3F 00 02 00 0C; 35 00 00; 37",
        ),
        when_ready(
            "replies: every kind confirmed",
            2,
            "33 05 3F 00 02 00 12 41; 35 00 00; 33 06 3F 00 02 00 24 31 32; 35 00 00; \
             33 06 3F 00 02 00 26 FF 91; 35 00 00; 33 08 3F 00 02 00 47 C1 C2 43 44; 35 00 00; 37; \
             33 04 3F 00 02 00 05; 35 00 00; 33 05 3F 00 02 00 18 CD; 35 00 00; 33 04 3F 00 02 00 0C; \
             35 00 00; 33 05 3F 00 02 00 13 FF; 35 00 00; 37",
        ),
        when_ready(
            "replies: every kind silent",
            2,
            "33 05 3F 00 01 00 12 41; 36; 37; 33 06 3F 00 01 00 24 31 32; 36; 37; 33 06 3F 00 02 00 26 FF 91; \
             36; 37; 33 08 3F 00 02 00 47 C1 C2 43 44; 36; 37; 33 05 3F 00 02 00 18 CD; 36; 37; \
             33 04 3F 00 01 00 05; 36; 37; 34 06 3F 02 81 00; 36; 37",
        ),
    ]
}

/// Who may be written, and for whom a group's reply confirms.
fn doubt_cases() -> Vec<Case> {
    vec![
        // The known leader alone is confirmed for; a reply that isn't clear; the
        // leader's own place in doubt.
        when_ready(
            "doubt: a group with a place in doubt",
            3,
            "34 06 3F 01 80 01; 35 00 00; 34 06 3F 02 80 00; 35 00 00; 34 06 3F 03 81 00; 36; 37; \
             33 06 3F 01 80 00 26 07 00; 35 00 00; 37; 33 06 3F 01 90 00 24 01 02; 36; 37; \
             33 04 3F 00 03 00 0E; 35 00 00; 37; 34 06 3F 03 80 00; 35 00 00; 33 05 3F 01 80 00 18 01; \
             35 02 02; 37; 34 06 3F 01 81 00; 36; 33 05 3F 01 80 00 18 01; 35 00 00; 37",
        ),
        // The same value again, silent; another, with a reply.
        when_ready(
            "doubt: a group without leader",
            2,
            "33 06 3F 01 FF 00 26 00 00; 36; 37; 33 05 3F 01 FF 00 18 07; 35 00 00; 37",
        ),
        // The leader's, known and in doubt.
        when_ready(
            "doubt: copies of a held set",
            2,
            "34 06 3F 01 FF 01; 35 00 00; 33 08 3F 01 FF 00 47 07 00 11 22; 35 00 00; 33 04 3F 01 FF 00 05; \
             35 00 00; 37; 33 08 3F 00 01 00 47 08 00 33 44; 36; 33 04 3F 01 FF 00 05; 35 00 00; 37",
        ),
        // To a group of another leader than the first.
        when_ready(
            "doubt: a node that left the group",
            2,
            "34 06 3F 01 80 01; 35 00 00; 34 06 3F 02 90 01; 35 00 00; 33 05 3F 01 80 00 18 01; 36; 37; \
             33 05 3F 01 90 00 18 02; 35 00 00; 37",
        ),
    ]
}

/// 11 and its exceptions.
fn leader_cases() -> Vec<Case> {
    vec![when_ready(
        "leader wishes",
        3,
        "34 06 3F 01 80 01; 35 00 00; 34 06 3F 01 80 01; 35 00 00; 34 06 3F 02 80 01; 34 06 3F 02 81 01; \
         36; 34 06 3F 02 82 01; 36; 34 06 3F 03 90 01; 34 06 3F 01 80 01; 34 06 3F 01 80 00; 35 00 00; \
         34 06 3F 02 80 01; 35 00 00; 34 06 3F 03 90 01; 35 00 00; 37",
    )]
}

/// Hard Reset and power-up.
fn ending_cases() -> Vec<Case> {
    vec![
        when_ready(
            "Hard Reset closes",
            2,
            "33 05 3F 00 01 00 18 33; 35 00 00; 33 04 3F 01 90 00 0F; 37; 35 02 02; 36; 33 04 3F 00 01 00 0E; \
             31 06 3F; 30 01 00; 37",
        ),
        when_ready(
            "power-up drops an exchange",
            2,
            "33 05 3F 00 01 00 18 33; 35 00 00; 33 05 3F 00 01 00 18 44; 30 02 00 00; 37; 35 00 00; 31 06 3F; \
             35 00 00",
        ),
    ]
}

// ---- Sessions handed in -----------------------------------------------

pub fn hand_in(session: &Session) -> String {
    hex::format(&[vec![0x38], layout::session(session)].concat())
}

/// An open session of n nodes whose walk stands so far.
pub fn session(n: u8, walk: u8, exchange: Exchange) -> Session {
    let mut session = Session::fresh(Rules::RIGHT);
    (session.open, session.n, session.walk) = (true, n, walk);
    session.exchange = exchange;
    for (index, entry) in session.entries.iter_mut().enumerate() {
        let node = index as u8 + 1;
        if node <= walk {
            entry.settings.place.address = node;
        }
    }
    session
}

/// A command that waits, sent at 0x3F.
pub fn waits(target: Target, command: Command) -> Exchange {
    waits_at(POWER_UP, target, command)
}

/// A command that waits, sent at a divisor.
pub fn waits_at(at: u8, target: Target, command: Command) -> Exchange {
    Exchange::Waiting {
        at,
        target,
        command,
    }
}

/// A session handed in, then lines.
pub fn handed(name: &str, session: &Session, lines: &str) -> Case {
    Case::new(name, [vec![hand_in(session)], story(lines)].concat())
}

/// Sessions that count as closed, or have no nodes.
pub fn handed_in_cases() -> Vec<Case> {
    let probes = "37; 31 06 3F; 32 04 3F; 33 04 3F 01 80 00 0E; 35 00 00; 36; 37";
    let mut closed = session(2, 2, waits(Target::Node(1), Command::SetOutputs(7)));
    closed.open = false;
    vec![
        handed("handed in: closed with an exchange", &closed, probes),
        handed(
            "handed in: no nodes",
            &session(0, 0, Exchange::Idle),
            probes,
        ),
        handed(
            "handed in: n above 31",
            &session(32, 32, Exchange::Idle),
            probes,
        ),
        handed(
            "handed in: walk past n",
            &session(2, 3, Exchange::Idle),
            probes,
        ),
        handed(
            "handed in: waiting past n",
            &session(2, 2, waits(Target::Node(3), Command::SetOutputs(7))),
            "31 06 3F; 35 00 00; 34 06 3F 01 80 00; 37; 30 02 00 00; 37",
        ),
    ]
}

/// Sessions in which something waits: `divisors` has them.
pub fn handed_in_waiting_cases() -> Vec<Case> {
    let set_address = Command::SetAddress(Place::from_data(0x05, 0x03));
    vec![
        handed(
            "handed in: another Set Address in the walk",
            &session(3, 1, waits(Target::Node(2), set_address)),
            "35 00 00; 37; 31 06 3F",
        ),
        handed(
            "handed in: a Set Address beside the walk",
            &session(3, 1, waits(Target::Node(3), set_address)),
            "35 00 00; 37; 31 06 3F; 36; 32 04 3F; 35 00 00; 37",
        ),
        handed(
            "handed in: a Hard Reset that waits, confirmed",
            &session(2, 2, waits(Target::Node(2), Command::HardReset)),
            "31 06 3F; 35 00 00; 37; 33 04 3F 00 01 00 0E; 36; 37",
        ),
        handed(
            "handed in: a Hard Reset to a group that waits, silent",
            &session(2, 2, waits(Target::Group(0xFF), Command::HardReset)),
            "36; 37",
        ),
        handed(
            "handed in: a Hard Reset that waits, a reply that isn't clear",
            &session(2, 2, waits(Target::Node(1), Command::HardReset)),
            "35 02 02; 37; 36",
        ),
        handed(
            "handed in: a Set Address to a group that waits",
            &session(2, 2, waits(Target::Group(0xFF), set_address)),
            "35 00 00; 37; 34 06 3F 01 90 01; 36; 37",
        ),
    ]
}
