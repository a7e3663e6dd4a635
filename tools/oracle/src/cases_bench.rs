//! Hand-written cases for the bench program. One chain of five nodes runs
//! through all of them; each case starts from where the last one left it.

use crate::case::{damaged, manual_cases, packet, Case};

/// The input of document 01's bench paragraph.
pub const DOCUMENT_EXAMPLE: [&str; 6] = [
    "2",
    "AA 00 21 01 FF 21",
    "AA 00 21 02 FF 22",
    "AA 02 26 05 00 2D",
    "AA 01 0E 10",
    "AA FF 0E 0D",
];

/// The groups that the cases leave nodes in.
const GROUPS_USED: [&str; 6] = ["80", "81", "90", "91", "A0", "FF"];

/// The cases in order.
pub fn cases() -> Vec<Case> {
    let mut cases = vec![
        plain("document 01: bench example", &DOCUMENT_EXAMPLE[1..]),
        fresh("document 01: packets", document_packets()),
    ];
    for manual in manual_cases("") {
        cases.push(fresh(&manual.name, manual.lines));
    }
    cases.extend([
        fresh("a walk of five", walk(5)),
        walked("every kind, whole and damaged", every_kind()),
        walked("others and other counts", others()),
        walked("masks", masks()),
        walked("leaders and members", leaders()),
        walked("collisions", collisions()),
        walked("Set Baud Rate at 3F", set_baud_rate()),
        walked("hearing behind reset nodes", hearing()),
        walked("addresses at the edges", edge_addresses()),
        walked("packets of the wrong shape", wrong_shapes()),
        walked("lines of the wrong form", wrong_forms()),
    ]);
    cases
}

fn own(lines: &[&str]) -> Vec<String> {
    lines.iter().map(|line| line.to_string()).collect()
}

fn packets(parts: &[&str]) -> Vec<String> {
    parts.iter().map(|parts| packet(parts)).collect()
}

fn plain(name: &str, lines: &[&str]) -> Case {
    Case::new(name, own(lines))
}

/// A case that starts with all nodes reset.
fn fresh(name: &str, lines: Vec<String>) -> Case {
    let mut all: Vec<String> = GROUPS_USED
        .iter()
        .map(|group| packet(&format!("{group} 0F")))
        .collect();
    all.extend(lines);
    Case::new(name, all)
}

/// A case that starts with nodes 1 to 5 addressed, in group 0xFF.
fn walked(name: &str, lines: Vec<String>) -> Case {
    fresh(name, [walk(5), lines].concat())
}

fn walk(nodes: u8) -> Vec<String> {
    (1..=nodes)
        .map(|node| packet(&format!("00 21 {node:02X} FF")))
        .collect()
}

fn document_packets() -> Vec<String> {
    own(&[
        "AA 00 21 01 FF 21",
        "AA 01 0E 0F",
        "AA 01 13 04 18",
        "AA 00 21 02 FF 22",
        "AA 02 26 05 00 2D",
        "AA 80 05 85",
        "AA 00 21 03 FF 23",
        "AA 03 21 03 01 28",
        "AA 81 0E 8F",
        "AA 01 0E 10",
        "AA 01 13 04",
        "AA 01 0E 0F 00",
        "01 0E 0F",
        "AA 00 F0 00 00 00 00 00 00 00 00 00 00 00 00 00 00 00 F0",
        "",
    ])
}

/// The eleven kinds to node 1; a damaged Hard Reset is replied to.
fn every_kind() -> Vec<String> {
    let kinds = [
        "01 21 01 90",
        "01 12 41",
        "01 13 BE",
        "01 24 AA 56",
        "01 05",
        "01 26 FF FF",
        "01 47 07 01 80 AA",
        "01 18 FF",
        "01 0C",
        "01 0E",
        "01 0F",
    ];
    kinds
        .iter()
        .flat_map(|parts| [damaged(parts), packet(parts), packet("01 0E")])
        .collect()
}

/// Commands that are none of the eleven, and kinds with counts not theirs.
fn others() -> Vec<String> {
    packets(&[
        "01 12 01",
        "01 00",
        "01 10 00",
        "01 09",
        "01 1A 3F",
        "01 0A",
        "01 0B",
        "01 0D",
        "01 01",
        "01 11 07",
        "01 31 07 FF 00",
        "01 02",
        "01 22 FF FF",
        "01 03",
        "01 23 FF FF",
        "01 14 00",
        "01 15 00",
        "01 16 05",
        "01 37 00 00 00",
        "01 28 00 00",
        "01 1C 00",
        "01 1E 00",
        "01 1F 00",
        "01 FE 00 00 00 00 00 00 00 00 00 00 00 00 00 00 00",
        "FF 1F 00",
        "01 0E",
    ])
}

/// Every item alone, all of them, and none again.
fn masks() -> Vec<String> {
    let mut lines = Vec::new();
    for bit in 0..8 {
        let mask = 1 << bit;
        lines.push(packet(&format!("02 13 {mask:02X}")));
        lines.push(packet(&format!("02 12 {mask:02X}")));
        lines.push(packet("02 0E"));
        lines.push(damaged("02 13 FF"));
    }
    lines.extend(packets(&["02 12 FF", "02 0E", "02 13 00", "02 12 00"]));
    lines
}

/// One leader answers for its group; members act in silence.
fn leaders() -> Vec<String> {
    let mut lines = packets(&[
        "01 21 01 00", // node 1 leads 0x80
        "02 21 02 80", // node 2 joins it
        "03 21 03 10", // node 3 leads 0x90
        "80 12 20",
        "01 0E",
        "02 0E",
        "80 0E",
        "90 0E",
        "FF 0E",
        "80 13 05",
        "80 1A 3F",
        "80 12 00",
    ]);
    lines.push(damaged("80 0E"));
    lines.push(damaged("80 12 FF"));
    lines.push(damaged("80 0F"));
    lines.extend(packets(&[
        "01 21 01 80", // the lead is given up
        "80 0E",
        "02 21 02 00", // and taken by node 2
        "80 0E",
        "80 0F", // both reset: no reply, no lead kept
        "80 0E",
        "FF 0E",
        "00 21 01 FF",
        "FF 0E", // node 2 hears and leads nothing
        "00 21 02 FF",
        "FF 0E",
    ]));
    lines
}

/// Two and three repliers act, and their replies collide.
fn collisions() -> Vec<String> {
    let mut lines = packets(&[
        "01 21 01 00",
        "02 21 02 00",
        "80 0E",
        "80 12 01",
        "01 0E",
        "02 0E",
        "03 21 03 00",
        "80 12 00",
        "03 0E",
        "80 13 FF",
    ]);
    lines.push(damaged("80 12 FF"));
    lines.extend(packets(&[
        "80 0F", // an intact Hard Reset never collides
        "00 21 01 FF",
        "00 21 02 FF",
        "00 21 03 FF",
        "04 21 05 FF", // nodes 4 and 5 share an address
        "05 0E",
        "05 12 02",
        "05 21 04 90",
        "04 0E",
        "90 0E",
        "90 0F",
    ]));
    lines
}

/// To the divisor that all have, by an individual address, with another count, damaged:
/// all hear on.
fn set_baud_rate() -> Vec<String> {
    let mut lines = packets(&[
        "01 21 01 00", // node 1 leads 0x80
        "02 21 02 80", // node 2 joins it
        "80 1A 3F",
        "FF 1A 3F",
        "01 1A 0A",
        "80 0A",
        "80 2A 0A 0A",
        "FF 2A 0A 0A",
        "90 1A 0A", // nobody is in it
    ]);
    lines.extend([damaged("80 1A 0A"), damaged("FF 1A 0A")]);
    lines.extend(packets(&["01 0E", "02 0E", "03 0E"]));
    lines
}

/// The last lines of the stored input: "sends every line at 0x3F", so that whoever is
/// in a group that another divisor is set for hears no more.
pub fn full_speed() -> Vec<String> {
    let set = GROUPS_USED.iter().map(|group| format!("{group} 1A 0A"));
    let mut lines: Vec<String> = set.map(|parts| packet(&parts)).collect();
    lines.extend(packets(&[
        "00 0E",
        "01 0E",
        "02 0E",
        "03 0E",
        "04 0E",
        "05 0E",
        "FF 1A 3F",
        "FF 0F",
        "00 21 01 FF",
        "01 0E",
    ]));
    lines
}

/// Nodes behind an unaddressed one are deaf unless addressed themselves.
fn hearing() -> Vec<String> {
    packets(&[
        "03 0F", // node 3 resets; 4 and 5 stay addressed and hear
        "04 0E",
        "00 0E", // node 3 hears behind node 2
        "04 0F", // node 4 is deaf now, behind node 3
        "00 0E",
        "00 12 01",
        "00 21 03 FF",
        "00 0E", // node 4 hears, with its old mask
        "00 21 04 FF",
        "01 0F", // the first node always hears
        "00 0E",
        "02 0E",
        "00 21 01 FF",
        "FF 0F",
        "00 21 01 FF",
        "02 0E",
        "00 0E",
    ])
}

/// Addresses 0x00, 0x7F and beyond, groups 0x80 and 0xFF.
fn edge_addresses() -> Vec<String> {
    packets(&[
        "01 21 80 FF", // changes nothing, is replied to
        "01 0E",
        "01 21 FF 00",
        "FF 0E",
        "01 21 7F 7F", // leads 0xFF at 0x7F
        "7F 0E",
        "FF 0E",
        "05 21 00 FF", // 0x00 is an address like others
        "00 0E",
        "7F 21 00 FF",
        "00 0E",
        "00 0F",
        "00 21 81 80",
        "00 0E",
    ])
}

/// Cut, headless, or with bytes left over: one, a header, a second packet.
fn wrong_shapes() -> Vec<String> {
    own(&[
        "AA",
        "AA 01",
        "AA 01 0E",
        "AA AA 0E B8",
        "AA 01 12",
        "AA 01 12 01",
        "AA 01 12 01 14 00",
        "AA 01 12 01 15 00",
        "AA 01 12 01 14 AA",
        "AA 01 12 01 14 AA 01 0E 0F",
        "AA 01 12 01 15 AA 01 0E 0F",
        "AA 01 F0 00",
        "00",
        "AB 01 0E 0F",
        "AB 01 0E 0F 00",
        "AB",
        "AA 01 26 AA 00 D1",
        "AA 01 47 AA AA AA AA F0",
        "AA 01 FE 00 00 00 00 00 00 00 00 00 00 00 00 00 00 00 FF",
        "AA 01 FE 00 00 00 00 00 00 00 00 00 00 00 00 00 00 00 00 FF",
        "AA 01 FE 00 00 00 00 00 00 00 00 00 00 00 00 00 00 FF",
    ])
}

/// Lines that are not of their form, between lines that are.
fn wrong_forms() -> Vec<String> {
    own(&[
        "aa 01 0e 0f",
        "AA 01 0e 0F",
        "AA  01 0E 0F",
        " AA 01 0E 0F",
        "AA 01 0E 0F ",
        "AA 01 0E F",
        "AA 01 0E 0F\r",
        "AA\t01 0E 0F",
        "AA010E0F",
        "0xAA 01 0E 0F",
        "AA 01 0E 0G",
        "AA,01,0E,0F",
        "AA 01 0E 00F",
        " ",
        "-",
        "AA 01 0E 0F",
        "",
        "AA 01 0E 0F",
    ])
}

/// A walk of two, and then Set Baud Rate: every later line gives `-`, at both nodes.
fn full_speed_of_two() -> String {
    let mut lines = walk(2);
    lines.extend(packets(&[
        "FF 1A 0A", "01 0E", "FF 1A 3F", "02 0E", "FF 0F", "00 0E",
    ]));
    format!("2\n{}\n", lines.join("\n"))
}

/// Further whole inputs, each for what its first or last line tells.
pub fn further_inputs() -> Vec<(&'static str, Vec<u8>)> {
    let nop = "AA 00 0E 0E";
    let mut inputs = vec![
        ("document", DOCUMENT_EXAMPLE.join("\n") + "\n"),
        ("document-unended", DOCUMENT_EXAMPLE.join("\n")),
        ("walk-of-31", format!("31\n{}\n", walk(31).join("\n"))),
        ("walk-of-1", format!("1\n{}\n", walk(2).join("\n"))),
        ("full-speed", full_speed_of_two()),
        ("count-alone", "2".to_string()),
        ("count-ended", "2\n".to_string()),
        ("empty-packet", "2\n\n".to_string()),
        ("empty", String::new()),
    ];
    for (name, count) in [
        ("count-empty", ""),
        ("count-0", "0"),
        ("count-32", "32"),
        ("count-02", "02"),
        ("count-100", "100"),
        ("count-space-before", " 2"),
        ("count-space-behind", "2 "),
        ("count-return", "2\r"),
        ("count-sign", "+2"),
        ("count-hexadecimal", "1F"),
    ] {
        inputs.push((name, format!("{count}\n{nop}\n")));
    }
    inputs
        .into_iter()
        .map(|(name, input)| (name, input.into_bytes()))
        .collect()
}
