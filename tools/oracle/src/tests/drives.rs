//! Request 6, against what the request and document 000 say of it.

use super::{answers, last_answer};
use crate::drive::Value;
use crate::kind::Kind;
use crate::refusal::{number_of, Refusal};
use crate::rules::Rules;
use crate::session::Session;
use crate::settings::Setting;

/// A drive's NODE at power-up, but for address, group byte, leader and addressed:
/// zeros, but for SR, which is 1, and the divisor.
fn node(place: &str, mask: &str, gains_to_motion: &str, values: &str) -> String {
    format!("01 3F {place} {mask} {gains_to_motion} {values}")
}

/// GAINS, stop byte and both MOTIONs of power-up; the bench values.
const POWER_UP: &str = "00 00 00 00 00 00 00 00 00 00 00 01 00 00 \
                        00 00 00 00 00 00 00 00 00 00 00 00 00 00 \
                        00 00 00 00 00 00 00 00 00 00 00 00 00 00";
const VALUES: &str = "61 62 63 64 65 66 67 68 69 6A 6B 6C 5A 01 71 72";

#[test]
fn a_drive_s_status_packets_read() {
    for (line, answer) in [
        ("12 01 00 09 09", "00 09"),
        ("12 01 01 09 00 28 00 00 31", "00 09 00 28 00 00"),
        ("12 01 80 09 09", "00 09"),
        ("12 01 02 00 01 01", "00 00 01"),
        ("12 01 02 00 00", "01"),
        ("12 01 04 00 01 02 03", "00 00 01 02"),
        ("12 00 04 00 01 02 03", "03"),
        ("12 02 00 00 00", "FF"),
    ] {
        assert_eq!(last_answer(&[line]), answer, "{line}");
    }
}

/// "The status data will always be sent in the order listed"; bit 7 adds none.
#[test]
fn a_drive_s_items_come_in_order() {
    let before = node("01 FF 00 01", "00", POWER_UP, VALUES);
    let line = format!("20 12 3F 01 {before} AA 01 13 FF 13");
    let sum: u32 = crate::case::bytes(VALUES)
        .iter()
        .map(|byte| u32::from(*byte))
        .sum();
    let reply = format!("00 {VALUES} {:02X}", sum % 256);
    assert_eq!(last_answer(&[&line]), format!("00 12 {reply} {before}"));
}

/// "Reset Position and Hard Reset zero the position, which is no setting"; all other
/// bench values stay, and a reset drive has SR 1.
#[test]
fn resets_zero_the_position() {
    let other = "11 12 13 14 15 16 17 18 19 1A 1B 1C 1D 05 \
                 31 21 22 23 24 25 26 27 28 29 2A 2B 2C 2D \
                 52 41 42 43 44 45 46 47 48 49 4A 4B 4C 4D";
    let zeroed = "00 00 00 00 65 66 67 68 69 6A 6B 6C 5A 01 71 72";
    let before = node("01 80 01 01", "01", other, VALUES);
    let reset_position = last_answer(&[&format!("20 06 3F 01 {before} AA 01 00 01")]);
    let after = node("01 80 01 01", "01", other, zeroed);
    assert_eq!(reset_position, format!("00 06 00 00 00 00 00 00 {after}"));
    let hard_reset = last_answer(&[&format!("20 00 3F 01 {before} AA 01 0F 10")]);
    let after = node("00 FF 00 00", "00", POWER_UP, zeroed);
    assert_eq!(hard_reset, format!("00 00 {after}"));
}

/// What a drive holds after a packet, from its gains to its motion in force.
fn held_after(before: &str, packet: &str) -> String {
    let node = node("01 FF 00 01", "00", before, VALUES);
    let answer = last_answer(&[&format!(
        "20 02 3F 01 {node} {}",
        crate::case::packet(packet)
    )]);
    assert!(
        answer.starts_with("00 02 00 00 01 3F 01 FF 00 01 00 "),
        "{answer}"
    );
    let held = &answer["00 02 00 00 01 3F 01 FF 00 01 00 ".len()..];
    assert!(held.ends_with(VALUES));
    held[..held.len() - VALUES.len() - 1].to_string()
}

/// Document 000's own loads, one behind the other: "a load waits for Start Motion";
/// "with the start bit, it is loaded, then started at once", all five values.
#[test]
fn loads_wait_and_start() {
    let front = "00 00 00 00 00 00 00 00 00 00 00 01 00 00";
    let zero = "00 00 00 00 00 00 00 00 00 00 00 00 00 00";
    let held = |waiting: &str, in_force: &str| format!("{front} {waiting} {in_force}");
    let loaded = "1F 01 02 03 04 05 06 07 08 09 0A 0B 0C 0D";
    let one = held_after(
        &held(zero, zero),
        "01 E4 1F 01 02 03 04 05 06 07 08 09 0A 0B 0C 0D",
    );
    assert_eq!(one, held(loaded, zero));
    let moved = "11 00 28 00 00 05 06 07 08 09 0A 0B 0C 0D";
    let two = held_after(&one, "01 54 11 00 28 00 00");
    assert_eq!(two, held(moved, zero));
    let three = held_after(&two, "01 05");
    assert_eq!(three, held(moved, moved));
    let started = "9A 00 28 00 00 25 06 01 00 09 0A 0B 0C 64";
    let four = held_after(&three, "01 64 9A 25 06 01 00 64");
    assert_eq!(four, held(started, started));
    // From one load to another that starts, without Start Motion between.
    assert_eq!(held_after(&one, "01 64 9A 25 06 01 00 64"), {
        let both = "9A 01 02 03 04 25 06 01 00 09 0A 0B 0C 64";
        held(both, both)
    });
}

/// "A value outside the manual's ranges, a reserved bit set, or more than one of a
/// Stop byte's bits 1 to 4 is replied to as a Nop is and not acted on", and so are
/// others.
#[test]
fn what_a_drive_does_not_act_on() {
    for packet in [
        "01 E6 00 80 00 00 00 00 00 00 00 00 00 00 01 00",
        "01 E6 00 00 00 00 00 00 00 00 00 01 00 00 01 00",
        "01 E6 00 00 00 00 00 00 00 00 00 00 00 40 01 00",
        "01 E6 01 00 00 00 00 00 00 00 00 00 00 00 00 00",
        "01 54 01 00 00 00 80",
        "01 54 02 00 00 00 80",
        "01 54 04 00 00 00 80",
        "01 17 06",
        "01 17 20",
        "01 57 10 00 00 00 80",
        "01 17 10",
        "01 57 04 01 00 00 00",
        "01 94 37 25 06 01 00 58 01 00 00",
        "01 24 01 40",
        "01 21 00 80",
        "01 26 05 00",
        "01 47 05 00 40 40",
        "01 18 01",
        "01 19 18",
        "01 0C",
        "01 0D",
    ] {
        assert_eq!(held_after(POWER_UP, packet), POWER_UP, "{packet}");
    }
    assert_ne!(held_after(POWER_UP, "01 57 10 01 00 00 80"), POWER_UP);
    assert_ne!(held_after(POWER_UP, "01 24 08 40"), POWER_UP);
}

/// A session of these kinds made ready, then lines; the answers to these.
fn when_ready(kinds: &str, lines: &[&str]) -> Vec<String> {
    let nodes = kinds.split(' ').count();
    let power_up = format!("30 {nodes:02X} {kinds}");
    let mut all = vec![power_up.as_str()];
    for _ in 0..nodes {
        all.extend(["31 06 3F", "35 00 00"]);
    }
    all.extend(lines);
    answers(&all).split_off(1 + 2 * nodes)
}

/// The numbers alone.
fn numbers(kinds: &str, lines: &[&str]) -> Vec<String> {
    let answers = when_ready(kinds, lines);
    answers
        .iter()
        .map(|answer| answer[..2].to_string())
        .collect()
}

/// 17 "for a command that the kind of a node it may reach lacks", between 10 and 9;
/// 6 for a value off its range, whomever it is for.
#[test]
fn the_host_refuses_by_kinds() {
    let lines = [
        ("33 04 3F 00 02 00 05", "11"),
        ("33 06 3F 00 02 00 24 08 40", "11"),
        ("33 04 3F 00 02 00 0C", "11"),
        ("33 04 3F 00 01 01 05", "11"),
        ("33 04 3F 00 01 01 00", "11"),
        ("33 04 3F 01 FF 01 05", "11"),
        ("33 04 3F 01 FF 00 05", "11"),
        ("33 05 3F 00 01 01 17 06", "06"),
        ("33 05 3F 00 28 01 17 06", "06"),
        ("33 05 3F 01 A0 01 17 06", "06"),
        ("33 05 3F 01 7F 01 17 05", "06"),
        ("33 05 3F 00 28 01 17 05", "0A"),
        ("33 04 3F 00 02 01 05", "00"),
    ];
    let (calls, expected): (Vec<&str>, Vec<&str>) = lines.into_iter().unzip();
    assert_eq!(numbers("00 01", &calls), expected);
    let walking = answers(&[
        "30 02 00 01",
        "33 06 3F 01 FF 00 24 01 02",
        "33 04 3F 00 02 01 05",
    ]);
    assert_eq!(walking[1], "11 55 55 55 55 55 55");
    assert_eq!(walking[2], "09 55 55 55 55");
}

/// Shared commands go to both kinds; a drive whose place is in doubt may be reached.
#[test]
fn groups_of_both_kinds() {
    let lines = [
        ("33 05 3F 01 FF 00 12 01", "00"),
        ("36", "00"),
        ("33 04 3F 01 A0 00 05", "00"),
        ("36", "00"),
        ("33 04 3F 01 A0 01 05", "00"),
        ("36", "00"),
        ("34 06 3F 02 90 00", "00"),
        ("36", "00"),
        ("33 04 3F 01 A0 00 05", "11"),
        ("33 04 3F 01 A0 01 05", "00"),
    ];
    let (calls, expected): (Vec<&str>, Vec<&str>) = lines.into_iter().unzip();
    assert_eq!(numbers("00 01", &calls), expected);
}

/// The settings of node 1 that a shown session has in doubt.
fn in_doubt(shown: &str) -> Vec<Setting> {
    let bytes = crate::case::bytes(shown);
    // The number, STATE's three bytes, no exchange; ENTRY's KIND, divisor and 46 bytes.
    let known = u16::from_le_bytes([bytes[5 + 48], bytes[5 + 49]]);
    let all = Setting::all(Kind::Drive).iter().copied();
    all.filter(|own| known & own.bit(Kind::Drive) == 0)
        .collect()
}

/// "Each a setting by itself in waiting and in force .. Start Motion copies the
/// waiting ones as Synch Output does."
#[test]
fn doubt_goes_with_each_copy() {
    let shown = when_ready(
        "01",
        &[
            "33 09 3F 00 01 01 54 04 58 01 00 00",
            "36",
            "37",
            "33 09 3F 00 01 01 54 91 00 28 00 00",
            "35 00 00",
            "37",
            "33 04 3F 00 01 01 05",
            "36",
            "37",
        ],
    );
    let (waiting, in_force) = (Setting::Waiting, Setting::InForce);
    assert_eq!(
        in_doubt(&shown[2]),
        [waiting(Value::Control), waiting(Value::Acceleration)]
    );
    assert_eq!(
        in_doubt(&shown[5]),
        [waiting(Value::Acceleration), in_force(Value::Acceleration)]
    );
    let mut all = vec![waiting(Value::Acceleration)];
    all.extend(Value::ALL.map(in_force));
    assert_eq!(in_doubt(&shown[8]), all);
}

/// Power-up is told a kind for each node, and none beyond n.
#[test]
fn as_many_kinds_as_nodes() {
    let mut session = Session::fresh(Rules::RIGHT);
    let before = session.clone();
    for kinds in [&[][..], &[Kind::Drive], &[Kind::Gate; 3]] {
        let refused = session.power_up(2, kinds);
        assert_eq!(number_of(&refused), Refusal::OffRange.number());
        assert_eq!(session, before);
    }
    assert_eq!(session.power_up(2, &[Kind::Gate, Kind::Drive]), Ok(()));
    let kinds = session.entries.map(|entry| entry.kind());
    assert_eq!(kinds[..3], [Kind::Gate, Kind::Drive, Kind::Gate]);
}

/// In a recording 05 and 24 are decided by the nodes reached: the record is that
/// of the calls that give these bytes.
#[test]
fn recordings_by_kinds() {
    let run = |packets: &[&str]| {
        let bytes: Vec<u8> = packets
            .iter()
            .flat_map(|one| crate::case::bytes(one))
            .collect();
        let times = packets.iter().enumerate().flat_map(|(place, one)| {
            let time = 2 * place as u32;
            vec![time; crate::case::bytes(one).len()]
        });
        let times: Vec<u8> = times.flat_map(u32::to_le_bytes).collect();
        let count = crate::layout::wide::<2>(bytes.len());
        crate::hex::format(&[&count[..], &bytes, &count, &times].concat())
    };
    let commands = run(&[
        "AA 00 21 01 FF 21",
        "AA 00 21 02 FF 22",
        "AA 01 24 18 40 7D",
        "AA 02 24 18 40 7E",
        "AA 02 05 07",
        "AA FF 05 04",
    ]);
    let replies = run(&["00 00"; 5]);
    let walked = last_answer(&[&format!("50 02 00 01 {commands} {replies}")]);
    // Ended by 05 to a group of both kinds.
    assert!(walked.starts_with("00 01 0B 00 "), "{walked}");
    let mut calls = vec![
        "30 02 00 01",
        "31 06 3F",
        "35 00 00",
        "31 06 3F",
        "35 00 00",
    ];
    calls.extend(["33 06 3F 00 01 00 24 18 40", "35 00 00"]);
    calls.extend(["33 06 3F 00 02 01 24 18 40", "35 00 00"]);
    calls.extend(["33 04 3F 00 02 01 05", "35 00 00", "37"]);
    let shown = last_answer(&calls);
    assert!(walked.ends_with(&shown[3..]));
}
