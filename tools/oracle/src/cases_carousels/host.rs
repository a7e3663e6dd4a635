//! Hand-written cases for the host's calls, `30` to `38`, with drives.

use crate::case::{bytes, Case};
use crate::cases_trials::host::{hand_in, handed, session, waits};
use crate::cases_trials::story;
use crate::command::{Command, Place};
use crate::drive::{Gains, Motion, Value};
use crate::hex;
use crate::kind::Kind;
use crate::record::Entry;
use crate::rules::Rules;
use crate::session::{Exchange, Session};
use crate::settings::{Own, Setting};
use crate::target::Target;

/// A session of these kinds made ready.
fn ready(kinds: &str) -> Vec<String> {
    let nodes = kinds.split(' ').count();
    let mut lines = vec![format!("30 {nodes:02X} {kinds}")];
    for _ in 0..nodes {
        lines.extend(story("31 06 3F; 35 00 00"));
    }
    lines
}

/// A case that starts ready.
pub fn when_ready(name: &str, kinds: &str, lines: &str) -> Case {
    Case::new(name, [ready(kinds), story(lines)].concat())
}

pub fn cases() -> Vec<Case> {
    let mut cases = power_up_cases();
    cases.extend(command_cases());
    cases.extend(doubt_cases());
    cases.extend(kind_cases());
    cases.extend(order_cases());
    cases.push(Case::new("drives: ranges at the host", ranges()));
    cases
}

/// Kinds of nodes 1 to n; beyond n all are gates; 6 leaves them. Hard Reset keeps
/// them.
fn power_up_cases() -> Vec<Case> {
    let too_many = format!("30 20{}", " 01".repeat(32));
    vec![
        Case::new(
            "drives: power-up",
            story(&format!(
                "30 03 01 00 01; 37; 30 00; {too_many}; 37; 30 01 00; 37; 30 02 00 01; 31 06 3F; 36; \
                 32 04 3F; 35 00 00; 31 06 3F; 35 00 00; 37"
            )),
        ),
        when_ready(
            "drives: Hard Reset keeps kinds",
            "01 00",
            "33 05 3F 00 01 01 17 05; 35 00 00; 33 04 3F 00 01 00 0F; 37; 33 04 3F 00 01 01 05; 30 01 01; \
             37",
        ),
    ]
}

/// The ten that a drive takes, confirmed and silent; Reset Position writes nothing.
fn command_cases() -> Vec<Case> {
    vec![
        when_ready(
            "drives: every command confirmed",
            "00 01",
            "33 05 3F 00 02 00 12 81; 35 00 00; 33 05 3F 00 02 00 13 FF; 35 00 00; 33 04 3F 00 02 00 0E; \
             35 00 00; 34 06 3F 02 90 01; 35 00 00; \
             33 12 3F 00 02 01 E6 64 00 00 04 46 00 28 00 FA 00 00 08 03 05; 35 00 00; \
             33 05 3F 00 02 01 17 05; 35 00 00; 37; 33 09 3F 00 02 01 57 11 01 02 03 84; 35 00 00; \
             33 12 3F 00 02 01 E4 1F 01 02 03 04 05 06 07 08 09 0A 0B 0C 0D; 35 00 00; 37; \
             33 09 3F 00 02 01 54 12 11 12 13 14; 35 00 00; 33 04 3F 00 02 01 00; 35 00 00; 37; \
             33 04 3F 00 02 01 05; 35 00 00; 37; \
             33 06 3F 00 02 01 24 D8 AA; 35 00 00; 37; 33 05 3F 00 02 01 14 80; 35 00 00; 37; \
             33 05 3F 00 02 01 17 02; 35 02 02; 37",
        ),
        when_ready(
            "drives: every command silent",
            "01 01",
            "33 05 3F 00 01 00 12 81; 36; 33 04 3F 00 01 01 00; 36; 37; \
             33 12 3F 00 01 01 E6 64 00 00 04 46 00 28 00 FA 00 00 08 03 05; 36; 37; \
             33 05 3F 00 02 01 17 05; 36; 37; 33 05 3F 00 01 01 14 30; 36; 37; \
             33 0D 3F 00 02 01 94 36 25 06 01 00 58 01 00 00; 36; 37; 33 04 3F 00 01 01 05; 36; 37; \
             34 06 3F 01 90 00; 36; 37",
        ),
        // Of 16 item bytes a drive has 16; a reply of 17 is good all the same, one of
        // 18 isn't.
        when_ready(
            "drives: replies of 17 item bytes",
            "01",
            "33 05 3F 00 01 01 17 05; \
             35 00 01 02 03 04 05 06 07 08 09 0A 0B 0C 0D 0E 0F 10 11 99; 37; \
             33 05 3F 00 01 01 17 02; \
             35 00 01 02 03 04 05 06 07 08 09 0A 0B 0C 0D 0E 0F 10 11 12 AB; 37",
        ),
    ]
}

/// Each waiting value is in doubt by itself, and its copy with it.
fn doubt_cases() -> Vec<Case> {
    vec![
        // Velocity and control byte in doubt: started, so are they in force. A load
        // brings them and starts: all known.
        when_ready(
            "drives: Start Motion copies doubt",
            "01",
            "33 0D 3F 00 01 01 94 13 00 28 00 00 00 80 01 00; 35 00 00; \
             33 09 3F 00 01 01 54 32 25 06 01 00; 36; 37; 33 04 3F 00 01 01 05; 35 00 00; 37; \
             33 09 3F 00 01 01 54 A2 25 06 01 00; 35 00 00; 37",
        ),
        // A waiting acceleration in doubt: a load of a position that starts puts it in
        // doubt in force, and no other.
        when_ready(
            "drives: a load that starts copies doubt",
            "01",
            "33 12 3F 00 01 01 E4 1F 01 02 03 04 05 06 07 08 09 0A 0B 0C 0D; 35 00 00; \
             33 09 3F 00 01 01 54 04 58 01 00 00; 36; 33 09 3F 00 01 01 54 91 00 28 00 00; 35 00 00; \
             37; 33 09 3F 00 01 01 54 92 25 06 01 00; 36; 37",
        ),
        // Silent: what it brings in doubt in waiting, all five in force.
        when_ready(
            "drives: a load that starts, silent",
            "01",
            "33 0D 3F 00 01 01 94 33 00 28 00 00 00 80 01 00; 35 00 00; 33 04 3F 00 01 01 05; \
             35 00 00; 33 06 3F 00 01 01 24 98 40; 36; 37; 33 09 3F 00 01 01 57 10 01 00 00 00; 36; 37",
        ),
        // The leader alone is confirmed for; Start Motion to the group after it.
        when_ready(
            "drives: a group with a leader",
            "01 01 00",
            "34 06 3F 01 90 01; 35 00 00; 34 06 3F 02 90 00; 35 00 00; \
             33 09 3F 01 90 01 54 11 00 28 00 00; 35 00 00; 37; 33 04 3F 01 90 01 05; 35 00 00; 37; \
             33 05 3F 01 90 01 17 05; 35 02 02; 33 05 3F 01 90 01 14 80; 36; 37; \
             33 12 3F 01 90 01 E6 64 00 00 04 46 00 28 00 FA 00 00 08 03 05; 35 00 00; \
             33 04 3F 01 90 01 00; 36; 37",
        ),
    ]
}

/// 17: node k; known members and nodes with place in doubt.
fn kind_cases() -> Vec<Case> {
    vec![
        when_ready(
            "kinds: what a node lacks",
            "00 01",
            "33 06 3F 00 02 00 24 18 40; 33 04 3F 00 02 00 05; 33 06 3F 00 02 00 26 05 00; \
             33 08 3F 00 02 00 47 07 01 80 AA; 33 05 3F 00 02 00 18 01; 33 04 3F 00 02 00 0C; \
             33 04 3F 00 01 01 00; 33 06 3F 00 01 01 24 18 40; 33 09 3F 00 01 01 54 91 00 28 00 00; \
             33 04 3F 00 01 01 05; 33 12 3F 00 01 01 E6 64 00 00 04 00 00 00 00 FF 00 00 08 01 00; \
             33 05 3F 00 01 01 17 05; 33 09 3F 00 01 01 57 10 01 00 00 00; 37; 33 06 3F 00 01 00 24 18 40; \
             35 00 00; 33 06 3F 00 02 01 24 18 40; 35 00 00; 33 04 3F 00 01 00 05; 35 00 00; \
             33 04 3F 00 02 01 05; 35 00 00; 37",
        ),
        when_ready(
            "kinds: what a group's members lack",
            "00 01 01",
            "33 06 3F 01 FF 00 26 05 00; 33 04 3F 01 FF 01 05; 33 04 3F 01 FF 00 05; 33 04 3F 01 FF 00 0C; \
             33 04 3F 01 FF 01 00; 33 05 3F 01 FF 00 12 01; 36; 33 04 3F 01 FF 00 0E; 36; \
             34 06 3F 02 90 01; 35 00 00; 34 06 3F 03 90 00; 35 00 00; 33 04 3F 01 90 00 05; \
             33 04 3F 01 90 01 05; 35 00 00; 33 04 3F 01 FF 01 05; 33 04 3F 01 FF 00 05; 36; 37; \
             34 06 3F 01 90 00; 35 00 00; 33 04 3F 01 90 00 05; 33 04 3F 01 90 01 05; 33 05 3F 01 90 00 13 FF; \
             35 00 00",
        ),
        // Nobody may be in A0: both 05 go out. Then a drive's place is in doubt, and a
        // gate's.
        when_ready(
            "kinds: what nodes in doubt lack",
            "00 01",
            "33 04 3F 01 A0 00 05; 36; 33 04 3F 01 A0 01 05; 36; 33 06 3F 01 A0 01 24 08 01; 36; \
             34 06 3F 02 90 00; 36; 33 04 3F 01 A0 00 05; 33 04 3F 01 FF 00 0C; 33 04 3F 01 A0 01 05; 36; 37; \
             34 06 3F 02 90 00; 35 00 00; 34 06 3F 01 80 00; 36; 33 04 3F 01 90 01 05; 33 04 3F 01 A0 01 00; \
             33 04 3F 01 80 00 05; 36; 33 04 3F 01 90 00 0F; 37",
        ),
    ]
}

/// Host order: 12, 7, 6, 10, 17, 9, 11, 5.
fn order_cases() -> Vec<Case> {
    vec![
        when_ready(
            "kinds: closed comes first",
            "00 01",
            "33 04 3F 00 01 00 0F; 33 00 3F 00 09 01 17 06; 33 00 3F 00 01 01 05; 33 00 3F 01 7F 01 05",
        ),
        when_ready(
            "kinds: an open exchange comes next",
            "00 01",
            "33 04 3F 00 01 00 0E; 33 00 3F 00 09 01 17 06; 33 00 3F 00 01 01 05; 33 00 3F 01 7F 01 05; 36",
        ),
        // A value off its range comes before node, kind and walk, and so does a group
        // below 80; then the node; then the kind, before the walk.
        Case::new(
            "kinds: while walking",
            story(
                "30 02 00 01; 33 00 3F 00 28 01 17 06; 33 00 3F 00 01 01 17 06; 33 00 3F 00 02 01 17 06; \
                 33 00 3F 01 80 01 17 06; 33 00 3F 01 7F 01 17 05; 33 00 3F 00 28 01 17 05; \
                 33 00 3F 00 00 01 17 05; 33 00 3F 00 03 01 17 05; 33 00 3F 00 01 01 17 05; \
                 33 00 3F 00 02 01 17 05; 33 00 3F 00 02 00 26 05 00; 33 00 3F 00 01 00 26 05 00; \
                 33 00 3F 01 FF 00 24 01 02; 33 00 3F 01 FF 01 24 08 02; 33 00 3F 01 A0 01 05; \
                 33 00 3F 01 FF 00 0E; 34 00 3F 02 80 01; 37",
            ),
        ),
        when_ready(
            "kinds: when ready",
            "00 01",
            "33 00 3F 00 03 01 17 06; 33 00 3F 00 03 01 05; 33 00 3F 00 03 00 05; 33 00 3F 00 01 01 17 06; \
             33 00 3F 00 01 01 05; 33 00 3F 00 02 01 17 06; 33 00 3F 01 FF 01 17 06; 33 00 3F 01 FF 01 05; \
             33 03 3F 00 02 01 05; 33 03 3F 00 02 01 00; 33 04 3F 00 02 01 17 05; 33 08 3F 00 02 01 57 10 01 00 00 00; \
             33 11 3F 00 02 01 E6 64 00 00 04 00 00 00 00 FF 00 00 08 01 00; \
             33 05 3F 00 02 01 24 08 40; 37",
        ),
    ]
}

/// At a drive, a value at the end of its range is sent and one off it is 6.
fn ranges() -> Vec<String> {
    let mut lines = ready("01");
    for parts in [
        "E6 00 80 00 00 00 00 00 00 00 00 00 00 01 00",
        "E6 00 00 00 80 00 00 00 00 00 00 00 00 01 00",
        "E6 00 00 00 00 00 80 00 00 00 00 00 00 01 00",
        "E6 00 00 00 00 00 00 00 80 00 00 00 00 01 00",
        "E6 00 00 00 00 00 00 00 00 00 00 00 40 01 00",
        "E6 00 00 00 00 00 00 00 00 00 00 FF 7F 01 00",
        "E6 00 00 00 00 00 00 00 00 00 00 00 00 00 00",
        "54 01 00 00 00 80",
        "54 02 00 00 00 80",
        "54 04 00 00 00 80",
        "D4 87 00 00 00 00 FF FF FF FF 00 00 00 00",
        "17 06",
        "17 0C",
        "17 20",
        "17 40",
        "17 80",
        "57 12 00 00 00 00",
        "57 30 00 00 00 00",
        "57 10 00 00 00 80",
    ] {
        lines.push(format!("33 13 3F 00 01 01 {parts}"));
    }
    lines.push("37".to_string());
    for parts in [
        "E6 FF 7F FF 7F FF 7F FF 7F FF 00 FF 3F FF FF",
        "D4 07 FF FF FF 7F FF FF FF 7F FF FF FF 7F",
        "54 81 01 00 00 80",
        "17 00",
        "17 03",
        "57 11 01 00 00 80",
    ] {
        lines.extend([format!("33 13 3F 00 01 01 {parts}"), "35 00 00".to_string()]);
    }
    lines.push("37".to_string());
    lines
}

// ---- Sessions handed in -----------------------------------------------

/// A ready session of a gate and two drives, the first of which leads 0x90, with
/// values that tell where they come from.
fn gate_and_drives(exchange: Exchange) -> Session {
    let mut made = session(3, 3, exchange);
    for (index, leader) in [(1, true), (2, false)] {
        let mut entry = Entry::power_up(Rules::RIGHT, Kind::Drive);
        entry.settings.place = Place {
            address: index as u8 + 1,
            group: 0x90,
            leader,
        };
        if let Own::Drive(own) = &mut entry.settings.own {
            own.waiting = Motion {
                control: 0x1F,
                position: -0x10,
                velocity: 0x21,
                acceleration: 0x31,
                pwm: 0x41,
            };
            own.in_force.pwm = 0x4F;
        }
        made.entries[index] = entry;
    }
    made
}

fn doubting(mut session: Session, node: usize, settings: &[Setting]) -> Session {
    for setting in settings {
        session.entries[node - 1].put_in_doubt(*setting);
    }
    session
}

/// A session whose entry 31 is a drive's, its known bits with bit 15 among them.
fn unknown_bit() -> String {
    let mut made = gate_and_drives(Exchange::Idle);
    made.entries[30] = made.entries[1];
    let mut line = bytes(&hand_in(&made));
    let last = line.len() - 1;
    line[last] |= 0x80;
    hex::format(&line)
}

/// A session that waits for a Set Address said with FAMILY 01, which has none.
fn family_of_set_address() -> String {
    let place = Place {
        address: 1,
        group: 0xFF,
        leader: false,
    };
    let mut line = bytes(&hand_in(&session(
        1,
        1,
        waits(Target::Node(1), Command::SetAddress(place)),
    )));
    let waiting = [1, 0x3F, 0, 1, 0, 0x21];
    let family = line.windows(6).position(|part| part == waiting);
    line[family.expect("it waits") + 4] = 1;
    hex::format(&line)
}

pub fn handed_in_cases() -> Vec<Case> {
    let start = waits(Target::Group(0x90), Command::StartMotion);
    let load = Command::LoadTrajectory(Motion {
        control: 0x92,
        velocity: 0x7FFF_FFFF,
        ..Motion::ZERO
    });
    let off_range = Command::SetGain(Gains {
        kp: 0x8000,
        sr: 0,
        ..Gains::POWER_UP
    });
    let position = Setting::Waiting(Value::Position);
    vec![
        handed(
            "handed in: a Start Motion that waits, a waiting position in doubt",
            &doubting(gate_and_drives(start), 2, &[position]),
            "37; 35 00 00; 37; 33 04 3F 00 03 01 05; 36; 37",
        ),
        handed(
            "handed in: a load that starts and waits, silent",
            &doubting(
                gate_and_drives(waits(Target::Node(3), load)),
                3,
                &[position],
            ),
            "37; 36; 37; 33 09 3F 00 03 01 54 92 01 00 00 00; 35 00 00; 37",
        ),
        // What the kind lacks changes nothing of the entry.
        handed(
            "handed in: a gate's command that waits on drives",
            &gate_and_drives(waits(Target::Group(0x90), Command::SynchOutput)),
            "37; 36; 37; 33 04 3F 00 01 01 05; 33 04 3F 00 02 01 05; 35 00 00; 37",
        ),
        // Values off their ranges that wait are recorded as they are.
        handed(
            "handed in: gains off their ranges that wait, confirmed",
            &gate_and_drives(waits(Target::Node(2), off_range)),
            "37; 35 00 00; 37",
        ),
        handed(
            "handed in: a Hard Reset that waits on drives, confirmed for the leader",
            &gate_and_drives(waits(Target::Group(0x90), Command::HardReset)),
            "35 00 00; 37",
        ),
        Case::new(
            "handed in: a bit of known that is none's",
            vec![unknown_bit(), "37".to_string()],
        ),
        Case::new(
            "handed in: a Set Address of FAMILY 01",
            vec![family_of_set_address()],
        ),
    ]
}
