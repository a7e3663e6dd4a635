//! Hand-written cases for the host's calls at divisors, `31` to `34` and `39`.

use crate::case::{bytes, Case};
use crate::cases_carousels::host::when_ready;
use crate::cases_trials::host::{hand_in, handed, session, waits_at};
use crate::cases_trials::story;
use crate::command::{Command, Place};
use crate::hex;
use crate::kind::Kind;
use crate::record::Entry;
use crate::rules::Rules;
use crate::session::{Exchange, Session};
use crate::settings::Setting;
use crate::target::Target;

pub fn cases() -> Vec<Case> {
    let mut cases = walk_cases();
    cases.extend(set_cases());
    cases.extend(nop_cases());
    cases.extend(doubt_cases());
    cases.extend(listed_cases());
    cases.extend(paced_cases());
    cases.extend(order_cases());
    cases
}

/// At another listed divisor than 3F nobody hears the walk, and it isn't refused. Only
/// an ask's reply tells of the divisor.
fn walk_cases() -> Vec<Case> {
    vec![
        Case::new(
            "divisors: the walk at another",
            story(
                "30 02 00 00; 31 06 0A; 37; 36; 31 06 0A; 32 04 3F; 36; 37; 32 04 14; 35 02 02; 37; \
                 32 04 0A; 37; 35 00 00; 37; 31 06 0A; 35 00 00; 37",
            ),
        ),
        Case::new(
            "divisors: an ask at 3F",
            story("30 01 01; 31 06 81; 35 02 02; 31 06 3F; 36; 32 04 3F; 35 00 00; 37"),
        ),
        // 12, 7, 18, 9, 5.
        Case::new(
            "divisors: next and ask in their order",
            story(
                "30 01 00; 31 06 3F; 31 00 00; 32 00 00; 36; 31 00 00; 31 00 3F; 32 00 00; \
                 32 00 3F; 32 03 0A; 37; 32 04 3F; 35 00 00; 31 00 00; 32 00 FF; 31 00 3F; \
                 33 04 3F 00 01 00 0F; 31 00 00; 32 00 00",
            ),
        ),
    ]
}

/// "On silence members' divisors go into doubt": members alone, and what else may come
/// back.
fn set_cases() -> Vec<Case> {
    vec![
        when_ready(
            "divisors: set, silent",
            "00 00 01",
            "34 06 3F 03 90 00; 35 00 00; 39 05 3F FF 0A; 37; 36; 37; 39 06 3F 90 14; 36; 37; \
             39 05 3F A0 14; 36; 37",
        ),
        // A node that missed it is found by a Nop at the old divisor, one that heard it
        // at the new; the Nop at the wrong one is silent, and tells nothing.
        when_ready(
            "divisors: set, and each node found",
            "00 00",
            "39 05 3F FF 0A; 36; 33 04 0A 00 01 00 0E; 35 00 00; 37; 33 04 0A 00 02 00 0E; 36; \
             37; 33 04 3F 00 02 00 0E; 35 00 00; 37; 39 05 3F FF 0A; 36; 33 04 0A 00 02 00 0E; \
             35 FD FD; 37; 39 05 0A FF 3F; 36; 37",
        ),
        // Damaged and answered so, it counts as unsent; a good clear reply, which no
        // leader has sent, confirms for nobody; another is silence.
        when_ready(
            "divisors: set, and a reply comes",
            "00 00",
            "39 05 3F FF 0A; 35 02 02; 37; 39 05 3F FF 0A; 35 00 00; 37; 33 04 3F 00 01 00 0E; \
             35 00 00; 33 04 3F 00 02 00 0E; 35 00 00; 39 05 3F FF 3F; 35 02 03; 37",
        ),
    ]
}

/// "A Nop to a node at a divisor, with a good clear reply, makes it known": only a Nop,
/// only to a node, only with such a reply.
fn nop_cases() -> Vec<Case> {
    vec![
        // To a node in doubt about its divisor, and to one that is not.
        when_ready(
            "divisors: what a Nop's reply tells",
            "00 01",
            "39 05 3F FF 0A; 36; 33 04 0A 00 01 00 0E; 36; 37; 33 04 0A 00 01 00 0E; 35 02 02; \
             37; 33 04 0A 00 01 00 0E; 35 00 01; 37; 33 04 14 00 01 00 0E; 35 01 01; 37; \
             33 04 81 00 01 00 0E; 35 00 00; 37; 33 04 3F 00 01 00 0E; 36; 37; \
             33 04 0A 00 02 00 0E; 35 00 00; 37",
        ),
        // Other commands' replies, and a group's to a Nop, whose leader is known.
        when_ready(
            "divisors: what no other reply tells",
            "00 00",
            "39 05 3F FF 0A; 36; 33 05 0A 00 01 00 13 00; 35 00 00; 33 06 0A 00 01 00 26 07 00; \
             35 00 00; 34 06 0A 01 80 01; 35 00 00; 37; 33 04 0A 01 80 00 0E; 35 00 00; 37; \
             33 05 0A 01 80 00 18 01; 35 00 00; 37; 33 04 0A 00 01 00 0E; 35 00 00; 37; \
             33 04 3F 01 80 00 0E; 35 00 00; 37",
        ),
    ]
}

/// A divisor that is known to be another spares no doubt, of Set Baud Rate neither; a
/// Hard Reset puts divisors in doubt, power-up makes them known.
fn doubt_cases() -> Vec<Case> {
    vec![
        when_ready(
            "divisors: a command at another",
            "00 00",
            "33 06 0A 00 01 00 26 07 00; 37; 36; 37; 33 05 14 00 02 00 18 01; 35 00 00; \
             33 05 81 01 FF 00 12 01; 36; 37; 34 06 0A 01 80 00; 36; 37",
        ),
        when_ready(
            "divisors: set at one that nobody has",
            "00 00",
            "39 05 0A FF 14; 36; 37; 39 05 0A FF 0A; 36; 37; 39 05 3F FF 3F; 36; 37",
        ),
        when_ready(
            "divisors: Hard Reset at the host",
            "00 01",
            "39 05 3F FF 0A; 36; 33 04 0A 00 01 00 0E; 35 00 00; 37; 33 04 14 00 01 00 0F; 37; \
             39 05 3F FF 0A; 30 02 00 01; 37",
        ),
    ]
}

/// 18: with gates alone all eight of 001, to be sent at and to be set, and no other;
/// with a drive the four of 000.
fn listed_cases() -> Vec<Case> {
    let sent_and_set = |divisor: u8| {
        format!(
            "33 04 {divisor:02X} 01 A0 00 0E; 36; 39 05 3F A0 {divisor:02X}; 36; \
             39 05 {divisor:02X} A0 3F; 36"
        )
    };
    let all = |divisors: &[u8]| {
        let each: Vec<String> = divisors.iter().map(|one| sent_and_set(*one)).collect();
        each.join("; ")
    };
    let eight = [0x81, 0x3F, 0x14, 0x0A, 0x27, 0x0F, 0x07, 0x03];
    let others = all(&[0x00, 0x3E, 0xFF]);
    vec![
        when_ready(
            "divisors: those listed for gates",
            "00",
            &format!(
                "{}; {others}; 34 06 27 01 80 00; 35 00 00; 34 06 28 01 80 00; 31 06 03; 37",
                all(&eight)
            ),
        ),
        when_ready(
            "divisors: those listed for drives",
            "01",
            &format!("{}; {}", all(&eight), all(&[0x02])),
        ),
        when_ready(
            "divisors: those listed for both kinds",
            "00 01",
            "33 04 27 00 01 00 0E; 33 04 14 00 01 00 0E; 36; 34 06 0F 01 80 00; 39 05 3F FF 07; \
             39 05 07 FF 3F; 39 05 3F FF 81; 36; 37; 30 01 00; 31 06 27; 36; 32 04 03; 37; \
             30 02 01 00; 31 06 27; 31 06 0A; 36; 32 04 03; 32 04 0A; 30 02 00 01; 31 06 27; \
             31 06 81; 36; 32 04 27; 32 04 14",
        ),
    ]
}

/// 19: a known leader of the group, not of another; a place in doubt, in the group or
/// not, of one that leads or not; whoever else is in the group. Told anew, they allow
/// it again.
fn paced_cases() -> Vec<Case> {
    vec![
        when_ready(
            "divisors: a known leader",
            "00 00",
            "34 06 3F 01 80 01; 35 00 00; 39 05 3F 80 0A; 39 05 3F FF 0A; 36; 39 05 3F 90 0A; 36; \
             34 06 3F 02 80 00; 35 00 00; 39 05 3F 80 0A; 34 06 3F 01 81 01; 35 00 00; \
             39 05 3F 80 0A; 36; 39 05 3F 81 0A; 34 06 3F 01 81 00; 35 00 00; 39 05 3F 81 0A; \
             36; 37",
        ),
        when_ready(
            "divisors: a place in doubt",
            "00 00",
            "34 06 3F 02 80 00; 36; 39 05 3F FF 0A; 39 05 3F 80 0A; 39 05 3F A0 0A; \
             34 06 3F 02 80 01; 35 00 00; 39 05 3F 80 0A; 39 05 3F A0 0A; 36; 34 06 3F 02 80 00; \
             36; 39 05 3F FF 0A; 39 05 3F A0 0A; 37",
        ),
    ]
}

/// Host order: 12, 7, 6, 18, 10, 17, 9, 11, 19, 5.
fn order_cases() -> Vec<Case> {
    vec![
        when_ready(
            "divisors: closed comes first",
            "00",
            "33 04 3F 00 01 00 0F; 39 00 00 7F 00; 39 00 00 FF 00; 33 00 00 00 01 00 0E; \
             34 00 00 01 80 01",
        ),
        when_ready(
            "divisors: an open exchange comes next",
            "00",
            "39 05 3F FF 0A; 37; 39 00 00 7F 00; 39 00 00 FF 00; 33 00 00 00 01 00 0E; \
             34 00 00 01 80 01; 31 00 00; 36",
        ),
        // 6 before 18, 18 before 10, 17 and 9; 9 before 19, though a place is in doubt.
        Case::new(
            "divisors: the order while walking",
            story(
                "30 02 00 01; 33 00 00 01 7F 00 0E; 33 00 00 00 02 01 17 06; 33 00 00 00 28 00 0E; \
                 33 00 00 00 01 01 05; 33 00 00 00 01 00 0E; 33 00 3F 00 28 01 05; \
                 33 00 3F 00 01 01 05; 33 00 3F 00 01 00 0E; 34 00 00 28 7F 01; \
                 34 00 00 28 80 01; 34 00 00 01 80 01; 34 00 3F 28 80 01; 34 00 3F 01 80 01; \
                 39 00 00 7F 00; 39 00 3F 7F 0A; 39 00 00 FF 0A; 39 00 3F FF 00; 39 00 3F FF 0A; \
                 31 06 3F; 36; 39 00 00 FF 0A; 39 00 3F FF 0A; 37",
            ),
        ),
        // 18 before 11 and 19; 11, then 5; 19, then 5.
        when_ready(
            "divisors: the order when ready",
            "00 00",
            "34 06 3F 01 80 01; 35 00 00; 34 00 00 02 80 01; 34 00 3F 02 80 01; 34 05 3F 02 81 01; \
             39 00 00 80 0A; 39 00 3F 80 00; 39 00 3F 80 0A; 39 04 3F FF 0A; 39 00 3F FF 0A; \
             33 00 00 00 03 00 0E; 33 00 3F 00 03 00 0E; 33 03 00 00 01 00 0E; \
             33 03 3F 00 01 00 0E; 33 03 00 00 01 00 0F; 37; 39 40 3F FF 0A; 36",
        ),
    ]
}

// ---- Sessions handed in -----------------------------------------------

/// A session of two gates at 14 and 0A, the second of which leads 0x80, in which
/// something waits.
fn two_gates(exchange: Exchange) -> Session {
    let mut made = session(2, 2, exchange);
    for (entry, divisor) in made.entries.iter_mut().zip([0x14, 0x0A]) {
        entry.settings.divisor = divisor;
        entry.settings.place.group = 0x80;
    }
    made.entries[1].settings.place.leader = true;
    made
}

fn pace(at: u8, divisor: u8) -> Exchange {
    waits_at(at, Target::Group(0x80), Command::SetBaudRate(divisor))
}

/// Lines that answer FF: Set Baud Rate that waits on a node, or is of FAMILY 01; bit 7
/// of what is known of a gate.
fn misformed() -> Vec<String> {
    let right = bytes(&hand_in(&two_gates(pace(0x0A, 0x55))));
    let waiting = [1, 0x0A, 1, 0x80, 0, 0x1A, 0x55];
    let at = right.windows(7).position(|part| part == waiting);
    let at = at.expect("it waits");
    let changed = |place: usize, byte: u8| {
        let mut line = right.clone();
        line[place] = byte;
        hex::format(&line)
    };
    vec![
        changed(at + 2, 0),
        changed(at + 4, 1),
        changed(right.len() - 1, 0xFF),
        "37".to_string(),
    ]
}

pub fn handed_in_cases() -> Vec<Case> {
    // A known leader, and a place in doubt, which no session sends it with.
    let mut doubtful = two_gates(pace(0x0A, 0x55));
    doubtful.entries[0].settings.place.group = 0x90;
    doubtful.entries[0].put_in_doubt(Setting::Place);
    // A drive beyond n, whose place is in doubt, whose group nobody leads, whose
    // divisor stays; the ask of a Nop at a divisor that no manual lists.
    let ask = waits_at(0x55, Target::Node(2), Command::Nop);
    let mut beyond = session(2, 1, ask);
    beyond.entries[1].put_in_doubt(Setting::Place);
    beyond.entries[2] = Entry::power_up(Rules::RIGHT, Kind::Drive);
    beyond.entries[2].settings.place = Place::from_data(3, 0x10);
    beyond.entries[3].put_in_doubt(Setting::Place);
    vec![
        handed(
            "handed in: a Set Baud Rate that waits, confirmed for a leader",
            &doubtful,
            "37; 35 00 00; 37; 39 05 0A 80 3F; 39 05 0A FF 3F",
        ),
        handed(
            "handed in: a Set Baud Rate that waits, silent",
            &doubtful,
            "36; 37",
        ),
        handed(
            "handed in: an ask at a divisor that isn't listed",
            &beyond,
            "37; 35 00 00; 37; 33 04 27 00 02 00 0E; 35 02 02; 39 05 03 90 27; 36; 39 05 3F FF 07; \
             36; 37",
        ),
        handed(
            "handed in: divisors without nodes",
            &session(0, 0, Exchange::Idle),
            "33 04 03 01 80 00 0E; 36; 33 04 00 01 80 00 0E; 39 05 27 FF 07; 36; 39 05 3F FF 00; \
             31 00 00; 31 00 3F; 33 00 3F 00 01 00 0E",
        ),
        Case::new("handed in: Set Baud Rate of the wrong form", misformed()),
    ]
}
