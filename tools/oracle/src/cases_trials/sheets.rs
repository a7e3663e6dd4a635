//! Hand-written cases for sheets, `40` to `43`.

use super::own;
use crate::case::{bytes, damaged, list, of_count, packet, Case};
use crate::hex;
use crate::layout;
use crate::trials::sheets::{MOST_LONG_LIST, MOST_LONG_ROOM, MOST_LONG_SHEET, MOST_ROOM};

/// The shortest line of a sheet, 8 bytes with its newline: 8192 of them are
/// 64 KiB.
const SHORTEST: &str = "HEX 1 E\n";

/// The longest line, 55 bytes with its newline.
const LONGEST: &str = "HEX 7F FA AA 01 02 03 04 05 06 07 08 09 0A 0B 0C 0D 0E\n";

/// Room for any one packet, and more.
const ROOM: usize = 0x16;

/// `40`.
fn import(room: usize, sheet: &str) -> String {
    hex::format(&[&[0x40], &layout::wide::<2>(room)[..], sheet.as_bytes()].concat())
}

/// `41`.
fn export(room: usize, list: &[u8]) -> String {
    hex::format(&[&[0x41], &layout::wide::<2>(room)[..], list].concat())
}

/// `42` and `43`: copies of a unit, then a tail.
fn long(kind: u8, room: usize, times: usize, unit: &[u8], tail: &[u8]) -> String {
    let (room, times) = (layout::wide::<3>(room), layout::wide::<2>(times));
    let length = [unit.len() as u8];
    hex::format(&[&[kind], &room[..], &times, &length, unit, tail].concat())
}

fn long_import(room: usize, times: usize, unit: &str, tail: &str) -> String {
    long(0x42, room, times, unit.as_bytes(), tail.as_bytes())
}

fn long_export(room: usize, times: usize, unit: &str, tail: &[u8]) -> String {
    long(0x43, room, times, &bytes(unit), tail)
}

/// Imports of one sheet each, all with the same room.
fn imports(room: usize, sheets: &[&str]) -> Vec<String> {
    sheets.iter().map(|sheet| import(room, sheet)).collect()
}

/// Exports of one list each, all with the same room.
fn exports(room: usize, lists: &[&str]) -> Vec<String> {
    lists
        .iter()
        .map(|list| export(room, &bytes(list)))
        .collect()
}

pub fn cases() -> Vec<Case> {
    let mut cases = vec![Case::new("sheets: printed lines", printed_lines())];
    cases.extend(import_cases());
    cases.extend(export_cases());
    cases.push(Case::new("sheets: lines of the wrong form", wrong_forms()));
    cases
}

/// The lines that request 1 and 001, 000 and 003 print; and back.
fn printed_lines() -> Vec<String> {
    let sheet = "HEX 01 13 04\nHEX 01 05\nHEX 1 05\n";
    let packets = list(&["01 13 04", "01 05", "01 05"]);
    vec![
        import(5, "HEX 01 13 04"),
        import(13, sheet),
        export(13 + 10 + 10, &packets),
    ]
}

// ---- Import -----------------------------------------------------------

fn import_cases() -> Vec<Case> {
    vec![
        Case::new("import: digits", imports(ROOM, &DIGITS)),
        Case::new("import: lines at fault", imports(ROOM, &LINES_AT_FAULT)),
        Case::new("import: every count", every_count()),
        Case::new("import: newlines", imports(ROOM, &NEWLINES)),
        Case::new("import: which line", imports(ROOM, &WHICH_LINE)),
        Case::new("import: rooms", import_rooms()),
        Case::new("import: order", import_order()),
        Case::new("import: sheets of 64 KiB", sheets_of_64_kib()),
    ]
}

/// "One or two hex digits are read, either case": 0 to F in both, groups, and
/// AA where it is no header.
const DIGITS: [&str; 12] = [
    "HEX 1 E",
    "HEX 1 e",
    "HEX 01 0e",
    "HEX 0 0",
    "HEX 00 00",
    "HEX 01 73 0 1 2 3 4 5 6",
    "HEX 01 73 7 8 9 A B C D",
    "HEX a 43 b c d F",
    "HEX aB 63 Ab cD Cd eF Fe 0f",
    "HEX 80 5",
    "HEX ff 0C",
    "HEX AA 2A aa AA",
];

/// One fault each.
const LINES_AT_FAULT: [&str; 38] = [
    // The word.
    "hex 1 E",
    "Hex 1 E",
    "1 E",
    "HEX1 E",
    "HE 1 E",
    "HEXX 1 E",
    "HEX",
    "HEX ",
    // What stands between the numbers.
    "\n",
    " ",
    "\r",
    "HEX 1 E\r",
    "HEX\t1 E",
    "HEX 1\tE",
    "HEX  1 E",
    "HEX 1  E",
    " HEX 1 E",
    "HEX 1 E ",
    "HEX 010E",
    "HEX 1,E",
    "HEX 1 E;",
    "HEX 1 E\0",
    // The digits.
    "HEX 001 E",
    "HEX 1 00E",
    "HEX 0x1 E",
    "HEX 0G E",
    "HEX 1 G",
    "HEX 1 0g",
    "HEX @1 E",
    "HEX 0/ E",
    "HEX 0: E",
    "HEX 0` E",
    "HEX \u{c4} E",
    // How many numbers: a sum, a header; a count that is wrong by 16.
    "HEX 1",
    "HEX 1 E F",
    "HEX 1 13 4 18",
    "HEX AA 1 E F",
    "HEX 1 1E 0 1 2 3 4 5 6 7 8 9 A B C D E F 0",
];

/// A line whose command byte says so many data bytes, and that has so many.
fn counting(said: usize, given: usize) -> String {
    let data: String = (1..=given).map(|byte| format!(" {byte:X}")).collect();
    format!("HEX 1 {said:X}3{data}\n")
}

/// All 16 counts in one sheet; then counts off by one.
fn every_count() -> Vec<String> {
    let all: String = (0..16).map(|count| counting(count, count)).collect();
    let mut lines = vec![import(16 * 4 + 120, &all)];
    for (said, given) in [(0, 1), (1, 0), (1, 2), (8, 7), (15, 14), (15, 16)] {
        lines.push(import(ROOM, &counting(said, given)));
    }
    lines
}

/// "A newline ends each line, though the last line read may lack it."
const NEWLINES: [&str; 6] = [
    "",
    "HEX 1 E\n",
    "HEX 1 E",
    "HEX 1 E\nHEX 2 E",
    "HEX 1 E\nHEX 2 E\n",
    "HEX 1 E\r\nHEX 2 E\r\n",
];

/// "With the line's number from 1": the first line at fault has it.
const WHICH_LINE: [&str; 7] = [
    "HEX 1\nHEX 1 E\n",
    "HEX 1 E\nHEX 1\nHEX 1 E\n",
    "HEX 1 E\nHEX 2 E\nHEX 3",
    "HEX 1 E\nHEX 2 E\n\n",
    "HEX 1 E\n\nHEX 2 E\n",
    "HEX 1 E\nhex 2 E\nHEX 3\nHEX 4 E\n\n",
    "\nHEX 1 E\nHEX 2",
];

/// Rooms that fit, are one short, and are more than needed.
fn import_rooms() -> Vec<String> {
    let two = "HEX 1 E\nHEX 1 13 4";
    let mut lines: Vec<String> = [0, 4, 8, 9, 10, MOST_ROOM]
        .into_iter()
        .map(|room| import(room, two))
        .collect();
    lines.extend([0, 1].map(|room| import(room, "")));
    lines
}

/// 14 before 5: the whole sheet is looked at first.
fn import_order() -> Vec<String> {
    vec![
        import(0, "HEX"),
        import(0, "HEX 1 E\nHEX 1"),
        import(3, "HEX 1 E\nHEX 2 E\nHEX 3 E 0\n"),
        import(6, "HEX 1 E\nHEX 2 E\n\n"),
        import(0, "HEX 1 E"),
    ]
}

/// 65,536 bytes and one more: 6, 14 and 5 in their sequence.
fn sheets_of_64_kib() -> Vec<String> {
    let packets = 4 * 8192;
    vec![
        long_import(packets, 8192, SHORTEST, ""),
        long_import(packets - 1, 8192, SHORTEST, ""),
        // One byte more: a blank line, a digit more, a last line unended.
        long_import(packets, 8192, SHORTEST, "\n"),
        long_import(packets, 8191, SHORTEST, "HEX 01 E\n"),
        long_import(packets, 8191, SHORTEST, "HEX 01 0E"),
        // At fault in the last line, in the first, in the only one, in each.
        long_import(packets, 8191, SHORTEST, "HEX 1 G\n"),
        long_import(0, 8191, SHORTEST, "HEX 1 E\r"),
        long_import(packets, 8191, "HEX 1 G\n", SHORTEST),
        long_import(0, 65535, "0", "\n"),
        long_import(0, 65535, "\n", "\n"),
        long_import(0, 65535, "\n", "\n\n"),
        // 6 comes before 14, and before 5.
        long_import(0, 8192, SHORTEST, "hex"),
        long_import(0, 8192, SHORTEST, SHORTEST),
        // As long as a line makes them, and longer.
        long_import(0, 8704, SHORTEST, ""),
        long_import(0, 8704, SHORTEST, "\n"),
        // The longest lines; a sheet without copies, and without bytes.
        long_import(19 * 1191 + 5, 1191, LONGEST, "HEX 00 1F 00\n"),
        long_import(8, 0, SHORTEST, "HEX 1 E\nHEX 2 E"),
        long_import(0, 65535, "", ""),
        long_import(0, 0, "", ""),
    ]
}

// ---- Export -----------------------------------------------------------

fn export_cases() -> Vec<Case> {
    vec![
        Case::new("export: packets", exports(0x40, &PACKETS)),
        Case::new("export: every count", exported_counts()),
        Case::new("export: packets that don't read", exports(0x20, &MISREAD)),
        Case::new("export: rooms", export_rooms()),
        Case::new("export: order", export_order()),
        Case::new("export: long lists", long_lists()),
    ]
}

/// Groups; AA as address, data and sum; sums that wrap; several; none.
const PACKETS: [&str; 10] = [
    "",
    "AA 01 0E 0F",
    "AA 01 13 04 18",
    "AA 00 21 01 FF 21",
    "AA 80 05 85",
    "AA AA 0E B8",
    "AA 01 47 AA AA AA AA F0",
    "AA 9C 0E AA",
    "AA FF FF 00 FF 01 FE 02 FD 03 FC 04 FB 05 FA 06 F9 AA A1",
    "AA 01 0E 0F AA 01 0E 0F AA AA 1A AA 6E AA 02 26 05 00 2D",
];

/// A list with a packet of each of these counts.
fn counted(counts: std::ops::Range<u8>) -> Vec<u8> {
    counts.flat_map(of_count).collect()
}

/// All 16 counts.
fn exported_counts() -> Vec<String> {
    vec![
        export(MOST_ROOM, &counted(0..8)),
        export(MOST_ROOM, &counted(8..16)),
    ]
}

/// 1, 2 or 4 "for the first packet that doesn't read", from the list's start;
/// never 3. A count is believed, whatever looks like a packet behind it.
const MISREAD: [&str; 23] = [
    "AA",
    "AA 01",
    "AA 01 0E",
    "AA 01 13 04",
    "AA 01 F3 AA 01 0E 0F",
    "00",
    "0F 01 0E 0F",
    "01 0E 0F AA 01 0E 0F",
    "AA 01 0E 10",
    "AA 01 0E B9",
    "AA 01 13 04 AA",
    "AA 01 13 04 AA 01 0E 0F",
    "AA 01 0E 0F 00",
    "AA 01 0E 10 00",
    "AA 01 0E 10 AA 01 0E 0F",
    "AA 01 0E 10 AA 01",
    "AA 01 0E 0F AA",
    "AA 01 0E 0F AA 01 13 04",
    "AA 01 0E 0F AA 01 0E 10",
    "AA 01 0E 0F 01 0E 0F AA 01 0E",
    "AA 01 0E 0F AA 01 0E 10 00 AA",
    "AA 01 0E 0F 0A",
    "AA 01 0E 0F AA 01 13 04 18 AA 02 26 05 00 2E AA 01 0E 0F",
];

/// Rooms that fit, are one short, and are more than needed.
fn export_rooms() -> Vec<String> {
    let two = list(&["01 0E", "01 13 04"]);
    let mut lines: Vec<String> = [0, 10, 22, 23, 24, MOST_ROOM]
        .into_iter()
        .map(|room| export(room, &two))
        .collect();
    lines.extend([0, 1].map(|room| export(room, &[])));
    lines
}

/// 1, 2, 4 before 5, also where an earlier line already has no room.
fn export_order() -> Vec<String> {
    let nop = packet("01 0E");
    let spoilt = ["AA", "01 0E 0F", &damaged("01 0E"), "AA 01 13 04"];
    let mut lines = Vec::new();
    for packet in spoilt {
        lines.push(export(0, &bytes(packet)));
        lines.push(export(9, &bytes(&format!("{nop} {packet}"))));
        lines.push(export(15, &bytes(&format!("{nop} {nop} {packet}"))));
    }
    lines.push(export(0, &bytes(&nop)));
    lines
}

/// No 6: what is longer than 64 KiB is given if it has room.
fn long_lists() -> Vec<String> {
    let nop = "AA 01 0E 0F";
    vec![
        long_export(81_920, 8192, nop, &[]),
        long_export(81_919, 8192, nop, &[]),
        // 65,536 bytes of sheet, and 65,537.
        long_export(65_536, 6552, nop, &counted(2..3)),
        long_export(MOST_LONG_ROOM, 6550, nop, &counted(9..10)),
        // The last packet doesn't read; nor does one amid the others.
        long_export(0, 8191, nop, &bytes("AA 01 0E")),
        long_export(0, 8191, nop, &bytes("01 AA 0E 0F")),
        long_export(MOST_LONG_ROOM, 8191, nop, &bytes("AA 01 0E 0E")),
        long_export(MOST_LONG_ROOM, 4000, "AA 01 0E 0F AA 01 0E 8F", &[]),
        // Longer than a line makes them; without copies, and without bytes.
        long_export(81_920, 8192, nop, &[0xAA]),
        long_export(0x20, 0, nop, &list(&["01 0E", "02 0E"])),
        long_export(0, 65535, "", &[]),
        long_export(0, 0, "", &[]),
    ]
}

// ---- Forms ------------------------------------------------------------

/// Lines that answer FF: too short for their fields, too much room, a unit
/// that is longer than the line.
fn wrong_forms() -> Vec<String> {
    let mut lines = own(&[
        "40",
        "40 10",
        "40 01 02",
        "40 00 03 48",
        "40 FF FF",
        "41",
        "41 10",
        "41 01 02 AA 01 0E 0F",
        "42",
        "42 00 00 00",
        "42 00 00 00 01",
        "42 00 00 00 01 00",
        "42 00 00 00 01 00 01",
        "42 00 00 00 00 00 02 48",
        "42 01 80 01 00 00 00",
        "42 00 00 02 00 00 00",
        "43",
        "43 00 00 00 01 00",
        "43 00 00 00 00 00 05 AA 01 0E 0F",
        "43 01 80 01 00 00 00",
        "43 00 00 FF 00 00 00",
        "44",
        "4F 00 00",
    ]);
    let too_long = MOST_LONG_SHEET / 8 + 1;
    lines.push(long_import(0, too_long, SHORTEST, ""));
    lines.push(long_export(0, MOST_LONG_LIST / 4 + 1, "AA 01 0E 0F", &[]));
    lines
}
