//! Every packet printed whole in the source documents, with the place where it
//! is printed. 003 prints none: its lines `HEX 1 05`, as those of 000 and 001,
//! are input of an interpreter, which adds header and sum.

use crate::command::{Command, SET_BAUD_RATE};
use crate::hex;
use crate::kind::Kind;
use crate::packet::{self, whole};
use crate::replay::words::name_and_data;
use crate::rules::Rules;
use crate::status;

/// A packet as printed.
pub struct Printed {
    pub document: &'static str,
    pub section: &'static str,
    pub bytes: &'static str,
    /// What is wrong with it in print.
    pub wrong: Option<&'static str>,
}

const fn printed(document: &'static str, section: &'static str, bytes: &'static str) -> Printed {
    Printed {
        document,
        section,
        bytes,
        wrong: None,
    }
}

const fn misprint(
    document: &'static str,
    section: &'static str,
    bytes: &'static str,
    wrong: &'static str,
) -> Printed {
    Printed {
        document,
        section,
        bytes,
        wrong: Some(wrong),
    }
}

/// The documents that print packets.
pub const DOCUMENTS: [&str; 4] = ["000", "001", "002", "004"];

/// The command packets in the order of the documents. A packet that is broken
/// over two lines of a table is joined.
#[rustfmt::skip]
pub const PRINTED: &[Printed] = &[
    printed("000", "Structure of Read Status command", "AA 01 13 01 15"),
    printed("000", "Commands, Examples: Reset position", "AA 01 00 01"),
    printed("000", "Commands, Examples: Define status", "AA 05 12 05 1C"),
    misprint("000", "Commands, Examples: Set address", "AA 01 21 07 FF 21", "the sum is 28, not 21 (001 prints the same packet rightly)"),
    printed("000", "Commands, Examples: Load trajectory", "AA 01 54 91 00 28 00 00 0E"),
    printed("000", "Commands, Examples: Set gain", "AA 01 E6 64 00 00 04 00 00 00 00 FF 00 00 08 01 00 57"),
    printed("000", "Set Address command format", "AA 00 21 01 FF 21"),
    printed("000", "Sequential addressing, step 1", "AA FF 0F 0E"),
    printed("000", "Sequential addressing, step 2", "AA 00 21 01 FF 21"),
    printed("000", "Sequential addressing, step 3", "AA 00 21 02 FF 22"),
    printed("000", "Sequential addressing, step 4", "AA 00 21 03 FF 23"),
    printed("000", "Managing Two Servo-Drives, #1", "AA FF 0F 0E"),
    printed("000", "Managing Two Servo-Drives, #2", "AA 00 21 01 FF 21"),
    printed("000", "Managing Two Servo-Drives, #3", "AA 00 21 02 FF 22"),
    printed("000", "Managing Two Servo-Drives, #4", "AA 01 E6 64 00 00 04 00 00 00 00 FF 00 00 08 01 00 57"),
    printed("000", "Managing Two Servo-Drives, #5", "AA 02 E6 64 00 00 04 00 00 00 00 FF 00 00 08 01 00 58"),
    printed("000", "Managing Two Servo-Drives, #6", "AA 01 E4 9F 00 00 00 00 00 00 00 00 01 00 00 00 00 85"),
    printed("000", "Managing Two Servo-Drives, #7", "AA 02 E4 9F 00 00 00 00 00 00 00 00 01 00 00 00 00 86"),
    printed("000", "Managing Two Servo-Drives, #8", "AA 01 17 05 1D"),
    printed("000", "Managing Two Servo-Drives, #9", "AA 02 17 05 1E"),
    misprint("000", "Managing Two Servo-Drives, #10", "AA 01 E4 9F 00 00 00 00 00 00 80 01 00 64 00 00 00 00 69", "one 00 too many: the command byte counts 14 data bytes, 15 are printed; the sum is right"),
    misprint("000", "Managing Two Servo-Drives, #11", "AA 02 E4 9F 00 00 00 00 00 00 80 01 00 64 00 00 00 00 6A", "one 00 too many: the command byte counts 14 data bytes, 15 are printed; the sum is right"),
    printed("000", "Managing Two Servo-Drives, #12", "AA 01 54 11 00 28 00 00 8E"),
    printed("000", "Managing Two Servo-Drives, #13", "AA 01 05 06"),
    printed("000", "Managing Two Servo-Drives, #14", "AA 01 13 05 19"),
    printed("000", "Managing Two Servo-Drives, #15", "AA 02 13 05 1A"),
    printed("000", "Managing Two Servo-Drives, #16", "AA 01 54 11 20 4E 00 00 D4"),
    printed("000", "Managing Two Servo-Drives, #17", "AA 02 54 11 E0 B1 FF FF F6"),
    printed("000", "Managing Two Servo-Drives, #18", "AA FF 05 04"),
    printed("000", "Procedure Initialize, line 1", "AA FF 0F 0E"),
    printed("000", "Procedure Initialize, line 2", "AA 00 21 01 FF 21"),
    printed("000", "Procedure Initialize, line 3", "AA 00 21 02 FF 22"),
    printed("000", "Procedure Initialize, line 4", "AA 01 13 20 34"),
    printed("000", "Procedure Initialize, line 5", "AA 01 13 FF 13"),
    printed("000", "Procedure Initialize, line 6", "AA 01 E6 64 00 00 04 00 00 00 00 FF 00 00 08 01 00 57"),
    printed("000", "Procedure Initialize, line 7", "AA 01 E4 9F 00 00 00 00 00 00 00 00 01 00 00 00 00 85"),
    printed("000", "Procedure Initialize, line 8", "AA 01 17 05 1D"),
    printed("000", "Procedure FindHomePosition, line 1", "AA 01 E6 C8 00 20 03 46 00 28 00 FF 00 40 1F 01 00 9F"),
    printed("000", "Procedure FindHomePosition, line 2", "AA 01 17 09 21"),
    misprint("000", "Procedure FindHomePosition, line 3", "AA 01 94 37 25 06 01 00 58 01 00 00 51", "control byte 37 brings a position too, for which there are no bytes: 36 is meant"),
    printed("000", "Procedure FindHomePosition, line 4", "AA 01 19 18 32"),
    printed("000", "Procedure FindHomePosition, line 5", "AA 01 05 06"),
    printed("000", "Procedure Go To Absolute Position, line 1", "AA 01 17 09 21"),
    printed("000", "Procedure Go To Absolute Position, line 2", "AA 01 A4 3E 25 06 01 00 58 01 00 00 64 CC"),
    printed("000", "Procedure Go To Absolute Position, line 3", "AA 01 05 06"),
    printed("001", "Structure of Read Status command", "AA 01 13 01 15"),
    printed("001", "Commands, Examples: No operation", "AA 01 0E 0F"),
    printed("001", "Commands, Examples: Define Status", "AA 05 12 05 1C"),
    printed("001", "Commands, Examples: Set Address", "AA 01 21 07 FF 28"),
    printed("001", "Commands, Examples: Set Synch Output", "AA 01 47 07 01 80 00 D0"),
    printed("001", "Example of Set Address command", "AA 00 21 01 FF 21"),
    printed("001", "Sequential addressing, step 1", "AA FF 0F 0E"),
    printed("001", "Sequential addressing, step 2", "AA 00 21 01 FF 21"),
    printed("001", "Sequential addressing, step 3", "AA 00 21 02 FF 22"),
    printed("001", "Sequential addressing, step 4", "AA 00 21 03 FF 23"),
    printed("001", "Managing Two LS-773 Nodes, #1", "AA FF 0F 0E"),
    printed("001", "Managing Two LS-773 Nodes, #2", "AA 00 21 01 FF 21"),
    printed("001", "Managing Two LS-773 Nodes, #3", "AA 00 21 02 FF 22"),
    printed("001", "Managing Two LS-773 Nodes, #4", "AA 01 13 01 15"),
    printed("001", "Managing Two LS-773 Nodes, #5", "AA 02 13 01 16"),
    printed("001", "Managing Two LS-773 Nodes, #6", "AA 01 13 0E 22"),
    printed("001", "Managing Two LS-773 Nodes, #7", "AA 02 13 0E 23"),
    printed("001", "Managing Two LS-773 Nodes, #8", "AA 01 26 07 00 2E"),
    printed("001", "Managing Two LS-773 Nodes, #9", "AA 02 26 33 00 5B"),
    printed("001", "Managing Two LS-773 Nodes, #10", "AA 01 26 06 00 2D"),
    printed("001", "Managing Two LS-773 Nodes, #11", "AA 01 24 80 56 FB"),
    printed("001", "Managing Two LS-773 Nodes, #12", "AA 02 26 06 00 2E"),
    printed("001", "Managing Two LS-773 Nodes, #13", "AA 02 24 00 FF 25"),
    printed("001", "Managing Two LS-773 Nodes, #14", "AA 01 18 01 1A"),
    printed("001", "Managing Two LS-773 Nodes, #15", "AA 01 13 10 24"),
    printed("001", "Managing Two LS-773 Nodes, #16", "AA 02 18 03 1D"),
    printed("001", "Managing Two LS-773 Nodes, #17", "AA 02 13 10 25"),
    printed("002", "Structure of Read Status command", "AA 01 13 01 15"),
    printed("002", "Commands, Examples: Reset position", "AA 01 00 01"),
    printed("002", "Commands, Examples: Define status", "AA 05 12 05 1C"),
    misprint("002", "Commands, Examples: Set address", "AA 01 21 07 FF 21", "the sum is 28, not 21 (001 prints the same packet rightly)"),
    printed("002", "Commands, Examples: Load trajectory", "AA 01 54 91 00 28 00 00 0E"),
    printed("002", "Commands, Examples: Set gain", "AA 01 E6 64 00 00 04 00 00 00 00 FF 00 00 08 01 00 57"),
    printed("002", "Set Address command format", "AA 00 21 01 FF 21"),
    printed("002", "Sequential addressing, step 1", "AA FF 0F 0E"),
    printed("002", "Sequential addressing, step 2", "AA 00 21 01 FF 21"),
    printed("002", "Sequential addressing, step 3", "AA 00 21 02 FF 22"),
    printed("002", "Sequential addressing, step 4", "AA 00 21 03 FF 23"),
    printed("002", "Managing Two Servo Drives, #1", "AA FF 0F 0E"),
    printed("002", "Managing Two Servo Drives, #2", "AA 00 21 01 FF 21"),
    printed("002", "Managing Two Servo Drives, #3", "AA 00 21 02 FF 22"),
    printed("002", "Managing Two Servo Drives, #4", "AA 01 E6 64 00 00 04 00 00 00 00 FF 00 00 08 01 00 57"),
    printed("002", "Managing Two Servo Drives, #5", "AA 02 E6 64 00 00 04 00 00 00 00 FF 00 00 08 01 00 58"),
    printed("002", "Managing Two Servo Drives, #6", "AA 01 E4 9F 00 00 00 00 00 00 00 00 01 00 00 00 00 85"),
    printed("002", "Managing Two Servo Drives, #7", "AA 02 E4 9F 00 00 00 00 00 00 00 00 01 00 00 00 00 86"),
    printed("002", "Managing Two Servo Drives, #8", "AA 01 17 05 1D"),
    printed("002", "Managing Two Servo Drives, #9", "AA 02 17 05 1E"),
    printed("002", "Managing Two Servo Drives, #10", "AA 01 E4 9F 00 00 00 00 00 80 01 00 64 00 00 00 00 69"),
    printed("002", "Managing Two Servo Drives, #11", "AA 02 E4 9F 00 00 00 00 00 80 01 00 64 00 00 00 00 6A"),
    printed("002", "Managing Two Servo Drives, #12", "AA 01 54 11 00 28 00 00 8E"),
    printed("002", "Managing Two Servo Drives, #13", "AA 01 05 06"),
    printed("002", "Managing Two Servo Drives, #14", "AA 01 13 05 19"),
    printed("002", "Managing Two Servo Drives, #15", "AA 02 13 05 1A"),
    printed("002", "Managing Two Servo Drives, #16", "AA 01 54 11 20 4E 00 00 D4"),
    printed("002", "Managing Two Servo Drives, #17", "AA 02 54 11 E0 B1 FF FF F6"),
    printed("002", "Managing Two Servo Drives, #18", "AA FF 05 04"),
    printed("002", "Procedure Initialize, line 1", "AA FF 0F 0E"),
    printed("002", "Procedure Initialize, line 2", "AA 00 21 01 FF 21"),
    printed("002", "Procedure Initialize, line 3", "AA 00 21 02 FF 22"),
    printed("002", "Procedure Initialize, line 4", "AA 01 13 20 34"),
    printed("002", "Procedure Initialize, line 5", "AA 01 13 FF 13"),
    printed("002", "Procedure Initialize, line 6", "AA 01 E6 64 00 00 04 00 00 00 00 FF 00 00 08 01 00 57"),
    printed("002", "Procedure Initialize, line 7", "AA 01 E4 9F 00 00 00 00 00 00 00 00 01 00 00 00 00 85"),
    printed("002", "Procedure Initialize, line 8", "AA 01 17 05 1D"),
    printed("002", "Procedure FindHomePosition, line 1", "AA 01 E6 C8 00 20 03 46 00 28 00 FF 00 40 1F 01 00 9F"),
    printed("002", "Procedure FindHomePosition, line 2", "AA 01 17 09 21"),
    printed("002", "Procedure FindHomePosition, line 3", "AA 01 94 36 25 06 01 00 22 00 00 00 19"),
    printed("002", "Procedure FindHomePosition, line 4", "AA 01 19 12 2C"),
    printed("002", "Procedure FindHomePosition, line 5", "AA 01 05 06"),
    printed("002", "Procedure FindHomePosition, line 6", "AA 01 19 18 32"),
    printed("002", "Procedure FindHomePosition, line 7", "AA 01 94 77 25 06 01 00 58 01 00 00 91"),
    printed("002", "Procedure FindHomePosition, line 8", "AA 01 05 06"),
    printed("004", "Managing Two LS-138 Drives, #1", "AA FF 0F 0E"),
    printed("004", "Managing Two LS-138 Drives, #2", "AA 00 21 01 FF 21"),
    printed("004", "Managing Two LS-138 Drives, #3", "AA 00 21 02 FF 22"),
    printed("004", "Managing Two LS-138 Drives, #4", "AA 01 56 04 01 00 00 00 5C"),
    printed("004", "Managing Two LS-138 Drives, #5", "AA 02 56 04 01 00 00 00 5D"),
    printed("004", "Managing Two LS-138 Drives, #6", "AA 01 18 01 1A"),
    printed("004", "Managing Two LS-138 Drives, #7", "AA 02 18 10 2A"),
    printed("004", "Managing Two LS-138 Drives, #8", "AA 01 13 40 54"),
    printed("004", "Managing Two LS-138 Drives, #9", "AA 02 13 40 55"),
    printed("004", "Managing Two LS-138 Drives, #10", "AA 01 17 05 1D"),
    printed("004", "Managing Two LS-138 Drives, #11", "AA 02 17 05 1E"),
    printed("004", "Managing Two LS-138 Drives, #12", "AA 01 34 86 7D FF 37"),
    printed("004", "Managing Two LS-138 Drives, #13", "AA 02 34 86 7D FF 38"),
    printed("004", "Managing Two LS-138 Drives, #14", "AA 01 34 16 7D FF C7"),
    printed("004", "Managing Two LS-138 Drives, #15", "AA 02 34 16 7D FF C8"),
    printed("004", "Managing Two LS-138 Drives, #16", "AA FF 05 04"),
    printed("004", "Device identification example, step 1", "AA 01 13 08 1C"),
    printed("004", "Device identification example, step 2", "AA 01 18 10 29"),
    printed("004", "Device identification example, step 3", "AA 01 13 08 1C"),
    printed("004", "Device identification example, step 4", "AA 01 18 00 19"),
    printed("004", "Unsupported channel detecting example, step 1", "AA 01 17 00 18"),
    printed("004", "Unsupported channel detecting example, step 2", "AA 01 18 03 1C"),
    printed("004", "Unsupported channel detecting example, step 3", "AA 01 0E 0F"),
    printed("004", "Missing motor detecting example, step 1", "AA 01 17 00 18"),
    printed("004", "Missing motor detecting example, step 2", "AA 01 18 00 19"),
    misprint("004", "Missing motor detecting example, step 3", "AA 01 17 05 18", "the sum is 1D, not 18"),
    printed("004", "Missing motor detecting example, step 4", "AA 01 00 01"),
    printed("004", "Missing motor detecting example, step 5", "AA 01 64 E6 FF FF FF 64 C8 74"),
    printed("004", "Missing motor detecting example, step 6", "AA 01 13 08 1C"),
];

/// A status packet as printed. The manuals say how many bytes were asked for
/// and not which, so the mask is one of the LS-773's, or for 000 of the LS-173AP's,
/// that asks for so many: reading goes by their number alone.
pub struct PrintedStatus {
    pub document: &'static str,
    pub section: &'static str,
    pub mask: u8,
    pub bytes: &'static str,
}

const fn status(
    document: &'static str,
    section: &'static str,
    mask: u8,
    bytes: &'static str,
) -> PrintedStatus {
    PrintedStatus {
        document,
        section,
        mask,
        bytes,
    }
}

/// The status packets in the order of the documents. All of them read.
#[rustfmt::skip]
pub const PRINTED_STATUS: &[PrintedStatus] = &[
    status("000", "Status Data, Examples: no bytes asked for", 0x00, "09 09"),
    status("000", "Status Data, Examples: four bytes asked for", 0x01, "09 00 28 00 00 31"),
    status("001", "Status Data, Examples: no bytes asked for", 0x00, "00 00"),
    status("001", "Status Data, Examples: four bytes asked for", 0x10, "00 01 23 05 10 39"),
    status("002", "Status Data, Examples: no bytes asked for", 0x00, "09 09"),
    status("002", "Status Data, Examples: four bytes asked for", 0x10, "09 00 28 00 00 31"),
];

/// A row of the table of divisors that a manual prints under Set Baud Rate: no manual
/// prints a packet of it.
pub struct PrintedDivisor {
    pub document: &'static str,
    pub baud_rate: u32,
    pub divisor: u8,
}

const fn listed(document: &'static str, baud_rate: u32, divisor: u8) -> PrintedDivisor {
    PrintedDivisor {
        document,
        baud_rate,
        divisor,
    }
}

/// The tables of the two manuals that decide: 000 the LS-173AP's, 001 the LS-773's. 003
/// and 004 print that of 000, 002 that of 001.
#[rustfmt::skip]
pub const PRINTED_DIVISORS: &[PrintedDivisor] = &[
    listed("000", 9600, 0x81),
    listed("000", 19200, 0x3F),
    listed("000", 57600, 0x14),
    listed("000", 115200, 0x0A),
    listed("001", 9600, 0x81),
    listed("001", 19200, 0x3F),
    listed("001", 57600, 0x14),
    listed("001", 115200, 0x0A),
    listed("001", 125000, 0x27),
    listed("001", 312500, 0x0F),
    listed("001", 625000, 0x07),
    listed("001", 1250000, 0x03),
];

impl PrintedStatus {
    /// The kind of node that the document is of: 000 is the LS-173AP's, all others
    /// are taken for an LS-773's.
    pub fn kind(&self) -> Kind {
        match self.document {
            "000" => Kind::Drive,
            _ => Kind::Gate,
        }
    }
}

fn bytes_of(text: &str) -> Vec<u8> {
    hex::parse(Rules::RIGHT, text.as_bytes()).expect("the list is in hexadecimal")
}

/// Bytes as they are listed.
fn shown(bytes: &[u8]) -> String {
    if bytes.is_empty() {
        return "none".to_string();
    }
    hex::format(bytes)
}

/// What reading a printed packet gives: its parts and its end, or the number.
pub fn reading(bytes: &str) -> String {
    match packet::read(Rules::RIGHT, &bytes_of(bytes)) {
        Ok(packet) => format!(
            "address {:02X}, command {:X}, data {}, ends at {}",
            packet.address,
            packet.command(),
            shown(packet.data),
            packet.end
        ),
        Err(refusal) => refusal.number().to_string(),
    }
}

/// What a drive takes a printed packet for: a command, one with a value off its
/// range, an other; or nothing, where it doesn't read.
pub fn reading_by_drive(bytes: &str) -> Option<String> {
    let bytes = bytes_of(bytes);
    let packet = packet::read(Rules::RIGHT, &bytes).ok()?;
    let command = Command::decode(Kind::Drive, packet.command_byte, packet.data);
    Some(match command {
        Some(command) if command.is_in_range(Rules::RIGHT) => name_and_data(Rules::RIGHT, command),
        Some(command) => format!("{}, off its range", name_and_data(Rules::RIGHT, command)),
        None => "another command".to_string(),
    })
}

/// What reading a printed status packet gives.
fn status_reading(printed: &PrintedStatus) -> String {
    let bytes = bytes_of(printed.bytes);
    match status::read(Rules::RIGHT, printed.kind(), printed.mask, &bytes) {
        Ok((status, items)) => format!("status {status:02X}, items {}", shown(items)),
        Err(refusal) => refusal.number().to_string(),
    }
}

/// The lists, one packet to a line.
pub fn list() -> String {
    let mut text = String::new();
    for packet in PRINTED {
        text += &format!(
            "{} | {} | {} | {}",
            packet.document,
            packet.section,
            packet.bytes,
            reading(packet.bytes)
        );
        if packet.document == "000" {
            let read = reading_by_drive(packet.bytes);
            text += &format!(" | by a drive: {}", read.as_deref().unwrap_or("none"));
        }
        if let Some(wrong) = packet.wrong {
            text += &format!(" | WRONG IN PRINT: {wrong}");
        }
        text.push('\n');
    }
    for packet in PRINTED_STATUS {
        text += &format!(
            "{} | {} | {} | {}\n",
            packet.document,
            packet.section,
            packet.bytes,
            status_reading(packet)
        );
    }
    for row in PRINTED_DIVISORS {
        let set = whole(0xFF, SET_BAUD_RATE & 0x0F, &[row.divisor]);
        text += &format!(
            "{} | Set Baud Rate, {} | {:02X} | to group FF: {}\n",
            row.document,
            row.baud_rate,
            row.divisor,
            hex::format(&set)
        );
    }
    text
}
