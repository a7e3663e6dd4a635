//! Hand-written inputs for the programs `import`, `export` and `play`: one
//! that is stored for each, and further ones under names of their own.

use crate::case::{bytes, damaged, list, manual_packets, packet, sheet_line};
use crate::manuals::DOCUMENTS;
use crate::rules::Rules;
use crate::sheet;

/// An input's name, and the input.
pub type Named = (&'static str, Vec<u8>);

/// The shortest line, 8 bytes with its newline: 8192 of them are 64 KiB.
const SHORTEST: &str = "HEX 1 E\n";

/// Lines typed in every way that is read: one digit and two, either case, all
/// sixteen counts, groups, AA among the data.
const TYPED: [&str; 34] = [
    "HEX 01 13 04",
    "HEX 01 05",
    "HEX 1 05",
    "HEX 1 5",
    "HEX 1 e",
    "HEX 01 0e",
    "HEX 0 0",
    "HEX 00 00",
    "HEX ff F",
    "HEX FF 0f",
    "HEX 80 5",
    "HEX aB 2a Cd eF",
    "HEX AA 2A aa AA",
    "HEX 0 21 1 ff",
    "HEX 2 26 5 0",
    "HEX 3 21 03 01",
    "HEX 7F 47 7 1 80 aa",
    "HEX 9C 0E",
    "HEX 1 0",
    "HEX 1 11 1",
    "HEX 1 22 1 2",
    "HEX 1 33 1 2 3",
    "HEX 1 44 1 2 3 4",
    "HEX 1 55 1 2 3 4 5",
    "HEX 1 66 1 2 3 4 5 6",
    "HEX 1 77 1 2 3 4 5 6 7",
    "HEX 1 88 1 2 3 4 5 6 7 8",
    "HEX 1 99 1 2 3 4 5 6 7 8 9",
    "HEX 1 aa 1 2 3 4 5 6 7 8 9 a",
    "HEX 1 BB 1 2 3 4 5 6 7 8 9 a B",
    "HEX 1 cC 1 2 3 4 5 6 7 8 9 a B c",
    "HEX 1 Dd 1 2 3 4 5 6 7 8 9 a B c D",
    "HEX 1 EE 1 2 3 4 5 6 7 8 9 a B c D e",
    "HEX 1 FF 01 02 03 04 05 06 07 08 09 0a 0B 0c 0D 0e 0F",
];

/// A show for five gates: the walk, masks, outputs and PWM pairs, a group with
/// a leader and one without, two leaders that collide, resets.
const SHOW: [&str; 42] = [
    "HEX 0 21 1 FF",
    "HEX 0 21 2 FF",
    "HEX 00 21 03 ff",
    "HEX 0 21 4 ff",
    "HEX 0 21 5 FF",
    "HEX 0 E",
    "HEX ff 0E",
    "HEX 1 12 1",
    "HEX 1 E",
    "HEX 1 13 fF",
    "HEX 1 12 0",
    "HEX 2 26 5 0",
    "HEX 2 24 80 40",
    "HEX 2 47 7 1 80 aa",
    "HEX 2 5",
    "HEX 3 18 1f",
    "HEX 3 C",
    "HEX 3 13 C0",
    "HEX 1 21 1 0",
    "HEX 2 21 2 80",
    "HEX 80 26 ff 00",
    "HEX 80 13 3",
    "HEX 80 05",
    "HEX 3 21 3 90",
    "HEX 90 E",
    "HEX 4 21 4 0",
    "HEX 80 E",
    "HEX 80 12 2",
    "HEX 1 E",
    "HEX 4 E",
    "HEX 4 f",
    "HEX 4 E",
    "HEX 0 E",
    "HEX 5 E",
    "HEX 0 21 4 ff",
    "HEX 1 1A 3f",
    "HEX 1 FE 0 1 2 3 4 5 6 7 8 9 A B C D E",
    "HEX 28 E",
    "HEX 80 F",
    "HEX 1 E",
    "HEX 0 21 1 FF",
    "HEX FF 0f",
];

/// The sheets of the document `shows/README.md`, which plays the first with 2
/// nodes and the second with 3.
const PASS: &str = include_str!("../../../shows/pass.hex");
const REGROUP: &str = include_str!("../../../shows/regroup.hex");

/// The stored input of `import`: typed lines, then the packets of all manuals
/// that read. The last line lacks its newline.
pub fn import() -> Vec<u8> {
    let mut lines = TYPED.map(str::to_string).to_vec();
    lines.extend(printed().iter().map(|packet| sheet_line(packet)));
    lines.join("\n").into_bytes()
}

/// Every packet that a manual prints and that reads, once.
fn printed() -> Vec<Vec<u8>> {
    let mut packets: Vec<Vec<u8>> = DOCUMENTS.into_iter().flat_map(manual_packets).collect();
    packets.sort();
    packets.dedup();
    packets
}

/// The stored input of `export`: what `import` makes of its own.
pub fn export() -> Vec<u8> {
    let packets = sheet::packets(Rules::RIGHT, &import());
    packets.expect("lines of the form and count").concat()
}

/// The stored input of `play`. The last line lacks its newline.
pub fn play() -> Vec<u8> {
    format!("5\n{}", SHOW.join("\n")).into_bytes()
}

/// Further sheets for `import`: faults, and sizes about 64 KiB.
pub fn further_imports() -> Vec<Named> {
    let most = SHORTEST.repeat(8192);
    let almost = SHORTEST.repeat(8191);
    named([
        ("empty", String::new()),
        ("manual", "HEX 01 13 04\n".to_string()),
        ("unended", "HEX 1 E\nHEX 2 e".to_string()),
        ("newline-alone", "\n".to_string()),
        ("return", "HEX 01 0E\r\nHEX 02 0E\r\n".to_string()),
        ("lower-word", "HEX 01 0E\nhex 02 0E\n".to_string()),
        ("count-7", format!("{}HEX 1 13\n", SHORTEST.repeat(6))),
        ("blank-last", format!("{}\n", SHORTEST.repeat(10))),
        (
            "two-faults",
            format!("{SHORTEST}HEX 001 E\nHEX\n{SHORTEST}"),
        ),
        ("not-text", "\u{0}\u{ff}\n".to_string()),
        // So many numbers too many that a count of 4 or 8 bits forgets them.
        ("long-line", format!("HEX 1 E{}\n", " 0".repeat(256))),
        ("size-65536", most.clone()),
        ("size-65537", format!("{almost}HEX 01 E\n")),
        ("size-65537-faulty", format!("{most}\n")),
        ("fault-8192", format!("{almost}HEX 1 G\n")),
    ])
}

/// Further lists for `export`.
pub fn further_exports() -> Vec<Named> {
    let nop = list(&["01 0E"]);
    let with = |packets: usize, more: &str| [nop.repeat(packets), bytes(more)].concat();
    vec![
        ("empty", Vec::new()),
        ("one", nop.clone()),
        ("cut-short", with(2, "AA 01 13 04")),
        ("cut-at-once", bytes("AA")),
        ("no-header", with(2, &format!("00 {}", packet("01 0E")))),
        ("no-header-at-once", bytes("48 45 58 20 31 20 45 0A")),
        (
            "wrong-sum",
            with(2, &format!("{} 00 AA", damaged("02 26 05 00"))),
        ),
        ("wrong-sum-at-once", bytes(&damaged("01 0E"))),
        ("left-over", with(1, "00")),
        ("size-65536", nop.repeat(16384)),
        ("size-65537", with(16383, &packet("01 12 00"))),
        ("size-65537-faulty", with(16384, "00")),
        ("packet-16384", with(16383, &damaged("01 0E"))),
    ]
}

/// Further inputs for `play`: the sheets of `shows/`, the tests in their
/// sequence, and sizes about 64 KiB, of the sheet and of the bench program's
/// form. There a line for a Nop has 12 bytes, and the first one two or three.
pub fn further_plays() -> Vec<Named> {
    let nops = |count: usize| SHORTEST.repeat(count);
    named([
        ("empty", String::new()),
        ("count-alone", "2".to_string()),
        ("count-ended", "31\n".to_string()),
        (
            "document",
            "2\nHEX 0 21 1 FF\nHEX 0 21 2 FF\nHEX 2 26 5 0\n".to_string(),
        ),
        ("pass", format!("2\n{PASS}")),
        ("regroup", format!("3\n{REGROUP}")),
        ("walk-of-31", format!("31\n{}", walk(31))),
        ("count-0", format!("0\n{SHORTEST}")),
        ("count-32", format!("32\n{SHORTEST}")),
        ("count-02", format!("02\n{SHORTEST}")),
        ("count-return", format!("2\r\n{SHORTEST}")),
        ("no-count", nops(2)),
        ("bad-count-and-line", "0\nHEX\n".to_string()),
        ("bench-form", "2\nAA 00 21 01 FF 21\n".to_string()),
        ("line-2", format!("2\n{SHORTEST}HEX 1 e \n")),
        ("blank-line", "2\n\nHEX 1 E\n".to_string()),
        ("form-65535", format!("31\n{}", nops(5461))),
        ("form-65537", format!("2\n{}HEX 1 12 0\n", nops(5460))),
        ("size-65536", format!("2\n{}", nops(8192))),
        ("size-65537", format!("2\n{}HEX 01 E\n", nops(8191))),
        ("size-65536-faulty", format!("31\n{}HEX 1 G\n", nops(8191))),
    ])
}

/// Lines that give addresses to so many nodes.
fn walk(nodes: u8) -> String {
    (1..=nodes)
        .map(|node| format!("HEX 0 21 {node:x} FF\n"))
        .collect()
}

fn named<const N: usize>(inputs: [(&'static str, String); N]) -> Vec<Named> {
    let own = inputs.into_iter();
    own.map(|(name, input)| (name, input.into_bytes()))
        .collect()
}
