//! Request 7, against what the request and the manuals say of it.

use super::{answers, last_answer};
use crate::bench;
use crate::call::after_sending;
use crate::case::{bytes, packet};
use crate::demand3;
use crate::kind::Kind;
use crate::node::Node;
use crate::record::Entry;
use crate::refusal::Refusal;
use crate::rules::{Mistake, Rules};
use crate::session::Session;
use crate::settings::Setting;

/// A gate's NODE: divisor, place and addressed, mask 00; what else it holds, zeros.
fn node(divisor: &str, place: &str) -> String {
    format!("00 {divisor} {place} 00{}", " 00".repeat(26))
}

/// "A node hears only commands at its own", whatever that is.
#[test]
fn a_node_hears_at_its_own_divisor() {
    for own in [0x3F, 0x0A, 0x00, 0xFF] {
        let node = node(&format!("{own:02X}"), "01 FF 00 01");
        for at in [0x3F, 0x0A, 0x00, 0xFF] {
            let line = format!("20 02 {at:02X} 01 {node} AA 01 0E 0F");
            let heard = if at == own {
                "00 02 00 00"
            } else {
                "00 00 55 55"
            };
            assert_eq!(last_answer(&[&line]), format!("{heard} {node}"));
        }
    }
}

/// What a Set Baud Rate or a Hard Reset leaves of a gate of divisor 14, as a member of
/// 0x80 or its leader, and the reply.
#[test]
fn what_a_node_makes_of_set_baud_rate() {
    let (member, leader) = ("01 80 00 01", "01 80 01 01");
    for (place, parts, reply, after) in [
        (member, "80 1A 0A", "00 00 55 55", "0A"),
        (member, "80 1A 55", "00 00 55 55", "55"),
        (member, "81 1A 0A", "00 00 55 55", "14"),
        (member, "01 1A 0A", "00 02 00 00", "14"),
        (member, "80 0A", "00 00 55 55", "14"),
        (member, "80 2A 0A 0A", "00 00 55 55", "14"),
        (leader, "80 1A 0A", "00 02 00 00", "0A"),
        (leader, "80 1A 00", "00 02 00 00", "00"),
        (leader, "80 2A 0A 0A", "00 02 00 00", "14"),
        (leader, "01 1A 0A", "00 02 00 00", "14"),
    ] {
        let line = format!("20 02 14 01 {} {}", node("14", place), packet(parts));
        let answer = format!("{reply} {}", node(after, place));
        assert_eq!(last_answer(&[&line]), answer, "{parts}");
    }
    let before = node("14", leader);
    let damaged = last_answer(&[&format!("20 02 14 01 {before} AA 80 1A 0A A5")]);
    assert_eq!(damaged, format!("00 02 02 02 {before}"));
    let reset = last_answer(&[&format!("20 02 14 01 {before} AA 80 0F 8F")]);
    assert_eq!(reset, format!("00 00 55 55 {}", node("3F", "00 FF 00 00")));
}

/// "The bench program sends every line at 0x3F."
#[test]
fn the_bench_stays_at_its_divisor() {
    let input = b"1\nAA 00 21 01 FF 21\nAA 01 1A 0A 25\nAA FF 1A 0A 23\nAA 01 0E 0F\n";
    let output = bench::run(Rules::RIGHT, input);
    assert_eq!(output, "00 00\n00 00\n-\n-\n");
}

/// "A setting that power-up makes 0x3F", at the node and in the record, known.
#[test]
fn power_up_makes_3f() {
    for kind in Kind::ALL {
        let node = Node::powered_up(Rules::RIGHT, kind);
        let entry = Entry::power_up(Rules::RIGHT, kind);
        assert_eq!(node.settings.divisor, 0x3F);
        assert_eq!(entry.settings.divisor, 0x3F);
        assert!(entry.knows(Setting::Divisor));
    }
}

/// A session of these kinds made ready, then lines; the answers to these.
fn when_ready(kinds: &str, lines: &[&str]) -> Vec<String> {
    let nodes = kinds.split(' ').count();
    let power_up = format!("30 {nodes:02X} {kinds}");
    let mut all = vec![power_up.as_str()];
    for _ in 0..nodes {
        all.extend(["31 06 3F", "35 00 00"]);
    }
    all.extend(lines);
    answers(&all).split_off(1 + 2 * nodes)
}

fn numbers(kinds: &str, lines: &[&str]) -> Vec<u8> {
    let answers = when_ready(kinds, lines);
    answers.iter().map(|answer| bytes(answer)[0]).collect()
}

/// What a shown session of gates has of a node: its divisor, and whether it is known.
fn divisor(shown: &str, node: usize) -> (u8, bool) {
    let bytes = bytes(shown);
    let exchange = match bytes[4] {
        0 => 1,
        _ => panic!("an exchange is open"),
    };
    let entry = &bytes[4 + exchange + 16 * (node - 1)..][..16];
    (entry[1], entry[15] & 0x40 != 0)
}

/// "On silence members' divisors go into doubt; a Nop to a node at a divisor, with a
/// good clear reply, makes it known": the one that heard Set Baud Rate, and the one that
/// missed it.
#[test]
fn a_nop_tells_the_divisor() {
    let shown = when_ready(
        "00 00",
        &[
            "39 05 3F FF 0A",
            "36",
            "37",
            "33 04 0A 00 01 00 0E",
            "35 00 00",
            "37",
            "33 04 0A 00 02 00 0E",
            "36",
            "37",
            "33 04 3F 00 02 00 0E",
            "35 00 00",
            "37",
        ],
    );
    assert_eq!(shown[0], "00 AA FF 1A 0A 23");
    let both = |line: &str| [divisor(line, 1), divisor(line, 2)];
    assert_eq!(both(&shown[2]), [(0x3F, false), (0x3F, false)]);
    assert_eq!(both(&shown[5]), [(0x0A, true), (0x3F, false)]);
    assert_eq!(both(&shown[8]), [(0x0A, true), (0x3F, false)]);
    assert_eq!(both(&shown[11]), [(0x0A, true), (0x3F, true)]);
}

/// No other command's reply tells, no reply that isn't clear, no group's.
#[test]
fn nothing_else_tells_the_divisor() {
    for (call, report) in [
        ("33 04 0A 00 01 00 0E", "36"),
        ("33 04 0A 00 01 00 0E", "35 02 02"),
        ("33 04 0A 00 01 00 0E", "35 00 01"),
        ("33 05 0A 00 01 00 13 00", "35 00 00"),
        ("33 05 0A 00 01 00 12 00", "35 00 00"),
        ("34 06 0A 01 FF 01", "35 00 00"),
        ("33 04 0A 01 FF 00 0E", "35 00 00"),
    ] {
        let lines = ["39 05 3F FF 0A", "36", call, report, "37"];
        let shown = when_ready("00 00", &lines);
        assert_eq!(divisor(&shown[4], 1), (0x3F, false), "{call}, {report}");
    }
    let led = ["39 05 3F FF 0A", "36", "34 06 0A 01 FF 01", "35 00 00"];
    let nop = ["33 04 0A 01 FF 00 0E", "35 00 00", "37"];
    let shown = when_ready("00 00", &[&led[..], &nop].concat());
    assert_eq!(divisor(&shown[6], 1), (0x3F, false));
}

/// A reply to Set Baud Rate: with the checksum bit it counts as unsent, and a good clear
/// one comes from nobody.
#[test]
fn replies_to_set_baud_rate() {
    for (report, known) in [("35 02 02", true), ("35 00 00", false), ("35 02 03", false)] {
        let shown = when_ready("00", &["39 05 3F FF 0A", report, "37"]);
        assert_eq!(divisor(&shown[2], 1), (0x3F, known), "{report}");
    }
}

/// "A command at a divisor not known to be the node's stays "could have written"", and
/// so does Set Baud Rate.
#[test]
fn a_known_divisor_spares_no_doubt() {
    let shown = when_ready("00", &["33 05 0A 00 01 00 12 01", "36", "37"]);
    assert_eq!(bytes(&shown[2])[5 + 15], 0x7F & !0x02);
    let shown = when_ready("00", &["39 05 0A FF 14", "36", "37"]);
    assert_eq!(divisor(&shown[2], 1), (0x3F, false));
}

/// 18 "for any other divisor, right after 6"; 19 "right after 11". Document 02 merged
/// into document 01's order: 12, 7, 6, 18, 10, 17, 9, 11, 19, 5.
#[test]
fn the_order_of_refusals() {
    let (divisor, paced) = (Refusal::Divisor.number(), Refusal::Paced.number());
    assert_eq!((divisor, paced), (18, 19));
    let lines = [
        ("39 00 00 7F 00", 6),
        ("39 00 00 FF 0A", 18),
        ("39 00 3F FF 00", 18),
        ("39 04 3F FF 0A", 5),
        ("33 00 00 01 7F 00 0E", 6),
        ("33 00 00 00 09 00 0E", 18),
        ("33 00 00 00 01 01 05", 18),
        ("34 00 00 09 80 01", 18),
        ("31 00 00", 18),
        ("31 00 3F", 9),
        ("34 06 3F 01 80 01", 0),
        ("39 00 00 80 0A", 7),
        ("35 00 00", 0),
        ("39 00 3F 80 0A", 19),
        ("39 00 3F 80 00", 18),
        ("34 00 00 02 80 01", 18),
        ("34 00 3F 02 80 01", 11),
        ("34 06 3F 02 81 00", 0),
        ("36", 0),
        ("39 00 3F FF 0A", 19),
        ("39 00 3F A0 0A", 19),
        ("33 04 3F 00 01 00 0F", 0),
        ("39 00 00 7F 00", 12),
    ];
    let (calls, expected): (Vec<&str>, Vec<u8>) = lines.into_iter().unzip();
    assert_eq!(numbers("00 00", &calls), expected);
    let walking = [
        "30 01 00",
        "39 00 3F FF 0A",
        "39 00 00 FF 0A",
        "31 06 3F",
        "36",
        "39 05 3F FF 0A",
    ];
    let walking: Vec<u8> = answers(&walking).iter().map(|own| bytes(own)[0]).collect();
    assert_eq!(walking, [0, 9, 18, 0, 0, 9]);
}

/// "Only divisors listed in the manual of every kind on the chain are set or sent at."
#[test]
fn the_divisors_of_a_chain() {
    for (kinds, most) in [
        ("00", 8),
        ("01", 4),
        ("00 00 01", 4),
        ("01 00", 4),
        ("00 00", 8),
    ] {
        let (mut sent, mut set) = (0, 0);
        for divisor in 0..=u8::MAX {
            let sending = format!("33 04 {divisor:02X} 01 A0 00 0E");
            let setting = format!("39 05 3F A0 {divisor:02X}");
            let numbers = numbers(kinds, &[&sending, "36", &setting]);
            assert!([0, 18].contains(&numbers[0]) && [0, 18].contains(&numbers[2]));
            sent += usize::from(numbers[0] == 0);
            set += usize::from(numbers[2] == 0);
        }
        assert_eq!((sent, set), (most, most), "{kinds}");
    }
}

/// Hard Reset puts divisors in doubt with all else; power-up makes them known.
#[test]
fn hard_reset_and_power_up() {
    let lines = ["33 04 3F 00 01 00 0F", "37", "30 01 00", "37"];
    let shown = when_ready("00", &lines);
    assert_eq!(divisor(&shown[1], 1), (0x3F, false));
    assert_eq!(divisor(&shown[3], 1), (0x3F, true));
}

/// 33 takes no Set Baud Rate; 1A waits in a session on a group alone, FAMILY 00.
#[test]
fn forms_of_set_baud_rate() {
    for line in [
        "33 05 3F 01 FF 00 1A 0A",
        "33 05 3F 00 01 00 1A 0A",
        "39 05 3F FF",
    ] {
        assert_eq!(last_answer(&[line]), "FF", "{line}");
    }
    let shown = when_ready("00", &["39 05 0A FF 14", "37"]).remove(1);
    let waiting = "01 0A 01 FF 00 1A 14";
    assert!(shown.contains(waiting), "{shown}");
    let hand_in = format!("38{}", &shown[2..]);
    assert_eq!(last_answer(&[&hand_in, "37"]), shown);
    for other in [
        "01 0A 00 01 00 1A 14",
        "01 0A 01 FF 01 1A 14",
        "01 0A 01 FF 00 2A 14 14",
    ] {
        assert_eq!(
            last_answer(&[&hand_in.replace(waiting, other)]),
            "FF",
            "{other}"
        );
    }
}

/// The reading that the order forbids, as a run of the line: the node misses Set Baud
/// Rate, answers a Nop at the old divisor, and the record says the new one.
#[test]
fn a_nop_confirms_no_set_baud_rate() {
    let rules = Rules::with(Mistake::NopConfirmsPace);
    let violation = demand3::run(rules, 1, 20_000).expect_err("a node missed it");
    assert!(violation
        .what
        .contains("Divisor is called known but differs"));
}

/// "In a recording it ends the walk": no host, wherever it stands, could have sent it,
/// whatever a call of its own would give.
#[test]
fn no_recording_goes_on_behind_set_baud_rate() {
    let mut given = 0;
    for mut host in demand3::stories(3, 2000)
        .into_iter()
        .map(|story| story.host)
    {
        if host.waits() {
            host.silence().expect("an exchange is open");
        }
        for group in [0x80, 0x90, 0xFF] {
            let set = bytes(&packet(&format!("{group:02X} 1A 0A")));
            assert_eq!(after_sending(&host, &set), None);
            let (mut tried, mut buffer) = (host.clone(), [0; 5]);
            given += usize::from(tried.set_baud_rate(0x3F, group, 0x0A, &mut buffer).is_ok());
        }
    }
    assert!(given > 20, "{given} given");
}

/// A session without nodes goes by the LS-773's list.
#[test]
fn divisors_without_nodes() {
    let mut session = Session::fresh(Rules::RIGHT);
    session.open = true;
    assert_eq!(session.set_baud_rate(0x03, 0xFF, 0x27, &mut [0; 5]), Ok(5));
    let mut other = Session::fresh(Rules::RIGHT);
    other.open = true;
    let refused = other.set_baud_rate(0x3F, 0xFF, 0x28, &mut [0; 5]);
    assert_eq!(refused, Err(Refusal::Divisor));
}
