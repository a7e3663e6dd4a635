//! Hand-written cases for the `trials` program, of gates. Those of drives are in
//! `cases_carousels`; sessions handed in, in which something waits, are among those of
//! `cases_divisors`.

pub mod chain;
pub mod host;
pub mod recordings;
mod sheets;

use std::collections::HashSet;

use crate::case::{manual_cases, of_count, Case};
use crate::hex;
use crate::kind::Kind;
use crate::layout;
use crate::manuals::{PrintedStatus, PRINTED_STATUS};
use crate::packet::{HEADER, MOST_DATA};

/// The cases in order.
pub fn cases() -> Vec<Case> {
    let mut cases = vec![
        Case::new("document 01: packets read", document_packets_read()),
        Case::new("document 01: packets built", document_packets_built()),
    ];
    cases.extend(manual_packets_read());
    cases.extend(packet_cases());
    cases.extend(chain::cases());
    cases.extend(host::document_records());
    cases.extend(host::cases());
    cases.extend(host::handed_in_cases());
    cases.extend(sheets::cases());
    cases.extend(recordings::cases());
    cases.push(Case::new("lines of the wrong form", wrong_forms()));
    cases
}

pub fn own(lines: &[&str]) -> Vec<String> {
    lines.iter().map(|line| line.to_string()).collect()
}

/// The lines of a story: one call after another, parted by semicolons.
pub fn story(lines: &str) -> Vec<String> {
    lines.split("; ").map(str::to_string).collect()
}

// ---- Packets ----------------------------------------------------------

fn document_packets_read() -> Vec<String> {
    own(&[
        "11 AA 01 0E 0F",
        "11 AA 00 21 01 FF 21",
        "11 AA 01 13 04 18",
        "11 AA 02 26 05 00 2D",
        "11 AA 80 05 85",
        "11 AA 03 21 03 01 28",
        "11 AA 01 0E 10",
        "11 AA 01 13 04",
        "11 AA 01 0E 0F 00",
        "11 01 0E 0F",
        "11 AA 00 F0 00 00 00 00 00 00 00 00 00 00 00 00 00 00 00 F0",
    ])
}

fn document_packets_built() -> Vec<String> {
    own(&[
        "10 04 01 0E",
        "10 08 00 01 01 FF",
        "10 05 01 03 04",
        "10 13 02 06 05 00",
        "10 04 80 05",
        "10 06 03 01 03 01",
        "10 13 00 00 00 00 00 00 00 00 00 00 00 00 00 00 00 00 00",
    ])
}

/// The packets that each manual prints and that none before it does: reading
/// remembers nothing, so once is enough. Those of the servo drives' manuals, which
/// come first, are read by `carousels`.
fn manual_packets_read() -> Vec<Case> {
    let mut cases = manual_packets_once();
    cases.retain(|case| !is_of_drives(&case.name));
    cases
}

/// The packets of 000 and 002.
pub fn drive_manuals_read() -> Vec<Case> {
    let mut cases = manual_packets_once();
    cases.retain(|case| is_of_drives(&case.name));
    cases
}

fn is_of_drives(name: &str) -> bool {
    name.ends_with("000") || name.ends_with("002")
}

fn manual_packets_once() -> Vec<Case> {
    let mut read = HashSet::new();
    let mut cases = manual_cases("11 ");
    for case in &mut cases {
        case.lines.retain(|line| read.insert(line.clone()));
    }
    cases
}

fn packet_cases() -> Vec<Case> {
    vec![
        Case::new("reading: order of checks", own(&ORDER_OF_CHECKS)),
        Case::new("reading: what follows", own(&WHAT_FOLLOWS)),
        Case::new("reading: every end", every_end()),
        Case::new("building: ranges and rooms", own(&RANGES_AND_ROOMS)),
        Case::new("status packets", status_packets()),
    ]
}

/// 1, 2, 1 and 4, alone and where several are due.
const ORDER_OF_CHECKS: [&str; 20] = [
    "11",
    "11 00",
    "11 AA",
    "11 AA 01",
    "11 AA 01 0E",
    "11 01 0E",
    "11 0F 01 0E 0F 00",
    "11 AA 01 12 01",
    "11 AA 01 12 01 14",
    "11 AA 01 12 01 15",
    "11 AA 01 12 01 14 00",
    "11 AA 01 12 01 15 00",
    "11 AA 01 0E B9",
    "11 AA AA 0E B8",
    "11 AA 01 12 AA BD",
    "11 AA 01 47 AA AA AA AA F0",
    "11 AA 01 26 FF FF 25",
    "11 AA 01 F0 00",
    "11 AA 7F 0E 8D",
    "11 AA FF 09 08",
];

/// Behind a packet: a byte, headers, a packet whole, cut, damaged. Behind a
/// wrong sum: the same, and the sum that would be right. Behind the longest
/// packet. What follows helps neither a short packet nor one without header.
const WHAT_FOLLOWS: [&str; 19] = [
    "11 AA 01 0E 0F AA",
    "11 AA 01 0E 0F 0F",
    "11 AA 01 12 AA BD AA AA AA",
    "11 AA 01 0E 0F AA 02 13 04 19",
    "11 AA 02 26 05 00 2D AA 01 0E 0F AA 01 0E 0F",
    "11 AA 01 0E 0F AA 01",
    "11 AA 01 0E 0F AA 01 0E 10",
    "11 AA 01 0E 0F 01 0E 0F",
    "11 AA 01 0E 10 00",
    "11 AA 01 0E 10 0F",
    "11 AA 01 0E 10 AA 01 0E 0F",
    "11 AA 01 13 04 00 18",
    "11 AA AA 01 0E 0F",
    "11 AA 01 0E AA 0F",
    "11 AA 01 13 04 AA 01 0E 0F",
    "11 AA 01 F3 AA 01 0E 0F",
    "11 01 0E 0F AA 01 0E 0F",
    "11 AA 7F FF 01 02 03 04 05 06 07 08 09 0A 0B 0C 0D 0E 0F F6 AA 01 0E 0F",
    "11 AA 7F FF 01 02 03 04 05 06 07 08 09 0A 0B 0C 0D 0E 0F F7 00",
];

/// A packet of each count with a byte behind it: ends 04 to 13.
fn every_end() -> Vec<String> {
    (0..=MOST_DATA as u8)
        .map(|count| hex::format(&[vec![0x11], of_count(count), vec![HEADER]].concat()))
        .collect()
}

const RANGES_AND_ROOMS: [&str; 17] = [
    "10 04 00 00",
    "10 03 01 0E",
    "10 00 01 0E",
    "10 05 FF 0F",
    "10 04 01 0F",
    "10 04 01 10",
    "10 00 01 10",
    "10 04 01 1E",
    "10 04 01 FF",
    "10 05 01 02 AA",
    "10 13 AA 0F 01 02 03 04 05 06 07 08 09 0A 0B 0C 0D 0E 0F",
    "10 12 AA 0F 01 02 03 04 05 06 07 08 09 0A 0B 0C 0D 0E 0F",
    "10 40 AA 0F 01 02 03 04 05 06 07 08 09 0A 0B 0C 0D 0E 0F 10",
    "10 12 AA 0F 01 02 03 04 05 06 07 08 09 0A 0B 0C 0D 0E 0F 10",
    "10 00 AA 10 01 02 03 04 05 06 07 08 09 0A 0B 0C 0D 0E 0F 10",
    "10 40 01 0E",
    "10 06 01 06 FF FF",
];

/// The status packets that the manuals of nodes of this kind print.
pub fn printed_status(kind: Kind) -> Vec<String> {
    let printed = PRINTED_STATUS.iter().filter(|own| own.kind() == kind);
    let line = |own: &PrintedStatus| {
        let kind = layout::kind(kind);
        format!("12 {kind:02X} {:02X} {}", own.mask, own.bytes)
    };
    printed.map(line).collect()
}

/// The manuals' status packets, then every mask bit and every refusal.
fn status_packets() -> Vec<String> {
    let mut lines = printed_status(Kind::Gate);
    lines.extend(own(&[
        "12 00 00",
        "12 00 FF",
        "12 00 00 00",
        "12 00 00 02 02",
        "12 00 00 02 03",
        "12 00 00 00 00 00",
        "12 00 01 00 00",
        "12 00 01 00 01 02 03",
        "12 00 01 00 01 02 04",
        "12 00 01 00 01 02 00 03",
        "12 00 FF FF 01 02 03 04 05 06 07 08 09 0A 0B 0C 0D 0E 0F 10 11 98",
        "12 00 FF FF 01 02 03 04 05 06 07 08 09 0A 0B 0C 0D 0E 0F 10 11 99",
        "12 00 FF FF 01 02 03 04 05 06 07 08 09 0A 0B 0C 0D 0E 0F 10 87",
    ]));
    for bit in 0..8 {
        let mask = 1u8 << bit;
        lines.push(format!("12 00 {mask:02X} 00 01 01"));
        lines.push(format!("12 00 {mask:02X} 00 01 02 03"));
        lines.push(format!("12 00 {mask:02X} 00 01 02 03 04 0A"));
    }
    lines
}

// ---- Forms ------------------------------------------------------------

/// Lines that answer FF and change nothing.
fn wrong_forms() -> Vec<String> {
    own(&[
        "",
        "00",
        "13",
        "3A",
        "FF",
        "10",
        "10 04",
        "10 04 01",
        "10 41 01 0E",
        "12",
        "12 00",
        "12 02 00 00 00",
        "20",
        "20 04",
        "20 04 3F 22",
        "20 04 3F 01",
        "20 41 3F 00",
        "30",
        "30 01",
        "30 01 02",
        "30 01 00 00",
        "31",
        "31 06",
        "31 06 3F 00",
        "31 41 3F",
        "32",
        "32 04 3F 00",
        "33",
        "33 04 3F 00 01",
        "33 04 3F 00 01 0E",
        "33 04 3F 02 01 00 0E",
        "33 04 3F 00 01 02 0E",
        "33 04 3F 00 01 00 0E 00",
        "33 06 3F 00 01 00 26 05",
        "33 06 3F 00 01 00 21 01 FF",
        "33 06 3F 00 01 00 1A 3F",
        "33 06 3F 00 01 00 1E 00",
        "33 41 3F 00 01 00 0E",
        "34",
        "34 06 3F 01 80",
        "34 06 3F 01 80 02",
        "34 06 3F 01 80 00 00",
        "34 41 3F 01 80 00",
        "36 00",
        "37 00",
        "38",
        "38 00 00 00 00",
        "3",
        "30  01 00",
        " 30 01 00",
        "30 01 00 ",
        "30 01 0g",
        "32 0a",
        "37",
    ])
}
