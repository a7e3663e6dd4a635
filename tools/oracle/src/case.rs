//! A stored case: its name and its lines, and what the hand-written ones are
//! put together from.

use crate::hex;
use crate::manuals::{DOCUMENTS, PRINTED};
use crate::packet::{read, whole};
use crate::rules::Rules;

/// Input lines under one name.
pub struct Case {
    pub name: String,
    pub lines: Vec<String>,
}

impl Case {
    pub fn new(name: &str, lines: Vec<String>) -> Case {
        Case {
            name: name.to_string(),
            lines,
        }
    }
}

/// The bytes of a line.
pub fn bytes(line: &str) -> Vec<u8> {
    hex::parse(Rules::RIGHT, line.as_bytes()).expect("a line of bytes")
}

/// A packet's line from address, command byte and data: header and sum added.
pub fn packet(parts: &str) -> String {
    let mut packet = vec![0xAA];
    packet.extend(bytes(parts));
    packet.push(crate::packet::sum(&packet[1..]));
    hex::format(&packet)
}

/// The same with its sum wrong by one.
pub fn damaged(parts: &str) -> String {
    let mut packet = bytes(&packet(parts));
    if let Some(last) = packet.last_mut() {
        *last = last.wrapping_add(1);
    }
    hex::format(&packet)
}

/// A packet with so many data bytes, 1, 2 and so on.
pub fn of_count(count: u8) -> Vec<u8> {
    let data: Vec<u8> = (1..=count).collect();
    whole(0x01, 0x3, &data)
}

/// Packets back to back, each from its parts.
pub fn list(parts: &[&str]) -> Vec<u8> {
    parts
        .iter()
        .flat_map(|parts| bytes(&packet(parts)))
        .collect()
}

/// The line of a sheet for a packet, with no digit more than needed.
pub fn sheet_line(packet: &[u8]) -> String {
    let parts = &packet[1..packet.len() - 1];
    let numbers: String = parts.iter().map(|byte| format!(" {byte:X}")).collect();
    format!("HEX{numbers}")
}

/// The packets that a manual prints and that read, in its order.
pub fn manual_packets(document: &str) -> Vec<Vec<u8>> {
    PRINTED
        .iter()
        .filter(|printed| printed.document == document)
        .map(|printed| bytes(printed.bytes))
        .filter(|packet| read(Rules::RIGHT, packet).is_ok())
        .collect()
}

/// The printed packets of each manual, one case per manual.
pub fn manual_cases(prefix: &str) -> Vec<Case> {
    DOCUMENTS
        .into_iter()
        .map(|document| {
            let lines = PRINTED
                .iter()
                .filter(|packet| packet.document == document)
                .map(|packet| format!("{prefix}{}", packet.bytes))
                .collect();
            Case::new(&format!("packets of manual {document}"), lines)
        })
        .collect()
}
