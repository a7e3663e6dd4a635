//! Request 1, movement sheets: "commands as source document 001's interpreter
//! takes them, as `HEX 01 13 04`: no header, no sum". A line of a sheet is a
//! packet; a list is packets back to back.

use std::borrow::Cow;
use std::cmp::Ordering;

use crate::buffer;
use crate::hex;
use crate::packet::{self, Packet, HEADER};
use crate::refusal::{require, Refusal};
use crate::rules::{Mistake, Rules};

/// The longest sheet that is imported: 64 KiB.
pub const MOST_SHEET: usize = 64 * 1024;

/// The word that every line begins with. "Either case" is said of digits.
const WORD: &[u8] = b"HEX";

/// What is wrong with a sheet.
#[derive(Clone, Copy, Debug, PartialEq, Eq)]
pub enum Fault {
    /// "6 for a longer sheet".
    TooLong,
    /// "Then 14 for a line not of this form or count, with the line's number
    /// from 1": the first such line.
    Line(usize),
}

/// A refused import. 14 has the line's number with it; with others it is 0.
#[derive(Clone, Copy, Debug, PartialEq, Eq)]
pub struct Refused {
    pub refusal: Refusal,
    pub line: usize,
}

impl From<Fault> for Refused {
    fn from(fault: Fault) -> Refused {
        match fault {
            Fault::TooLong => Refusal::OffRange.into(),
            Fault::Line(line) => Refused {
                refusal: Refusal::NotAHexLine,
                line,
            },
        }
    }
}

impl From<Refusal> for Refused {
    fn from(refusal: Refusal) -> Refused {
        Refused { refusal, line: 0 }
    }
}

/// The packets of a sheet go back to back to the start of the lent buffer: 6,
/// then 14, for which the whole sheet is looked at, then 5.
pub fn import(rules: Rules, sheet: &[u8], buffer: &mut [u8]) -> Result<usize, Refused> {
    if rules.slips(Mistake::ImportSpills) {
        spill(buffer, &packets_before_fault(rules, sheet));
    }
    if rules.slips(Mistake::RoomBeforeLines) && sheet.len() <= MOST_SHEET {
        let needed = packets_before_fault(rules, sheet).len();
        require(needed <= buffer.len(), Refusal::NoRoom)?;
    }
    let list = packets(rules, sheet)?.concat();
    Ok(buffer::write(rules, buffer, &list)?)
}

/// The packets of a sheet, in its order.
pub fn packets(rules: Rules, sheet: &[u8]) -> Result<Vec<Vec<u8>>, Fault> {
    let in_length = sheet.len() <= most_sheet(rules);
    if !in_length && !rules.slips(Mistake::LinesBeforeLength) {
        return Err(Fault::TooLong);
    }
    let read: Vec<Option<Vec<u8>>> = lines(rules, sheet)
        .into_iter()
        .map(|line| packet_of(rules, line))
        .collect();
    if let Some(index) = fault_among(rules, &read) {
        let first = usize::from(!rules.slips(Mistake::LinesFromZero));
        return Err(Fault::Line(first + index));
    }
    if !in_length {
        return Err(Fault::TooLong);
    }
    Ok(read.into_iter().flatten().collect())
}

fn most_sheet(rules: Rules) -> usize {
    if rules.slips(Mistake::SheetOf65536Refused) {
        MOST_SHEET - 1
    } else if rules.slips(Mistake::SheetOf65537Taken) {
        MOST_SHEET + 1
    } else {
        MOST_SHEET
    }
}

/// "A newline ends each line, though the last line read may lack it." An empty
/// sheet has no lines.
fn lines(rules: Rules, sheet: &[u8]) -> Vec<&[u8]> {
    let mut lines = hex::lines(sheet);
    let unended = !sheet.is_empty() && !sheet.ends_with(b"\n");
    if unended && rules.slips(Mistake::UnendedLineRefused) {
        lines.pop();
        lines.push(b"");
    }
    if sheet.is_empty() && rules.slips(Mistake::EmptySheetRefused) {
        lines.push(b"");
    }
    lines
}

/// Which line counts as the one at fault, from 0: the first.
fn fault_among(rules: Rules, read: &[Option<Vec<u8>>]) -> Option<usize> {
    if rules.slips(Mistake::LastFaultNumbered) {
        return read.iter().rposition(Option::is_none);
    }
    read.iter().position(Option::is_none)
}

/// The packet of one line, header and sum added. None where the line is not of
/// the form, or where "the data bytes number what the command byte says" fails.
fn packet_of(rules: Rules, line: &[u8]) -> Option<Vec<u8>> {
    if is_skipped(rules, line) {
        return Some(Vec::new());
    }
    let numbers = numbers(rules, &indulged(rules, line))?;
    let [address, command_byte, data @ ..] = numbers.as_slice() else {
        return None;
    };
    let counted = match data.len().cmp(&usize::from(command_byte >> 4)) {
        Ordering::Less => rules.slips(Mistake::TooFewDataTaken),
        Ordering::Equal => true,
        Ordering::Greater => rules.slips(Mistake::TooManyDataTaken),
    };
    let refused = rules.slips(Mistake::Data15Refused) && data.len() == 15
        || rules.slips(Mistake::GroupLineRefused) && *address >= 0x80;
    (counted && !refused).then(|| packet::assemble(rules, *address, command_byte & 0x0F, data))
}

/// The numbers behind the word: "one or two hex digits .., single spaces".
fn numbers(rules: Rules, line: &[u8]) -> Option<Vec<u8>> {
    let mut words = line.split(|byte| *byte == b' ').peekable();
    if words.peek() == Some(&WORD) {
        words.next();
    } else if !rules.slips(Mistake::WordLeftOut) {
        return None;
    }
    words.map(|word| number(rules, word)).collect()
}

fn number(rules: Rules, word: &[u8]) -> Option<u8> {
    match word {
        [_] if rules.slips(Mistake::OneDigitRefused) => None,
        [low] => digit(rules, *low),
        [high, low] => Some(digit(rules, *high)? << 4 | digit(rules, *low)?),
        [b'0', high, low] if rules.slips(Mistake::ThreeDigitsTaken) => {
            number(rules, &[*high, *low])
        }
        _ => None,
    }
}

/// A digit, "either case".
fn digit(rules: Rules, character: u8) -> Option<u8> {
    if character.is_ascii_lowercase() && rules.slips(Mistake::LowerDigitsRefused) {
        return None;
    }
    if character == b'G' && rules.slips(Mistake::LettersPastF) {
        return Some(16);
    }
    char::from(character).to_digit(16).map(|digit| digit as u8)
}

/// "1, 2 or 4 for the first packet that doesn't read; then 5." The sheet may
/// be longer than 64 KiB.
pub fn export(rules: Rules, list: &[u8], buffer: &mut [u8]) -> Result<usize, Refusal> {
    if rules.slips(Mistake::ExportSpills) {
        spill(buffer, &lines_before_fault(rules, list));
    }
    if rules.slips(Mistake::RoomBeforePackets) {
        let needed = lines_before_fault(rules, list).len();
        require(needed <= buffer.len(), Refusal::NoRoom)?;
    }
    let sheet = sheet_of(rules, list).map_err(|misread| misread.refusal)?;
    if rules.slips(Mistake::ExportGives6) {
        require(sheet.len() <= MOST_SHEET, Refusal::OffRange)?;
    }
    buffer::write(rules, buffer, &sheet)
}

/// The first packet of a list that doesn't read: its number from 1, and why.
/// An export yields only why.
#[derive(Clone, Copy, Debug, PartialEq, Eq)]
pub struct Misread {
    pub packet: usize,
    pub refusal: Refusal,
}

/// The sheet of a list, a line for each packet.
pub fn sheet_of(rules: Rules, list: &[u8]) -> Result<Vec<u8>, Misread> {
    let (packets, refusal) = walk(rules, list);
    if let Some(refusal) = refusal {
        return Err(Misread {
            packet: packets.len() + 1,
            refusal: told(rules, refusal),
        });
    }
    let mut sheet = lines_of(rules, &packets);
    if rules.slips(Mistake::ExportsUnended) {
        sheet.pop();
    }
    Ok(sheet)
}

/// The packets of a list, each read where the one before ended, up to the
/// list's end; or up to the first that doesn't read, and why it doesn't. What
/// follows a packet is the next one, so only the last can be short.
fn walk(rules: Rules, list: &[u8]) -> (Vec<Packet<'_>>, Option<Refusal>) {
    let mut packets = Vec::new();
    let mut rest = list;
    while !rest.is_empty() {
        match packet::read(rules, rest) {
            Ok(packet) => {
                packets.push(packet);
                rest = &rest[next_start(rules, rest, packet.end)..];
            }
            Err(Refusal::Short) if rules.slips(Mistake::CutPacketLeftOut) => break,
            Err(Refusal::WrongSum) if rules.slips(Mistake::DamagedLeftOut) => {
                rest = behind_damaged(rules, rest);
            }
            Err(refusal) => return (packets, Some(refusal)),
        }
    }
    (packets, None)
}

/// The lines of packets.
fn lines_of(rules: Rules, packets: &[Packet]) -> Vec<u8> {
    let packets = packets.iter();
    packets.flat_map(|packet| line_of(rules, packet)).collect()
}

/// "Export writes two capitals": the word, the packet without header and sum.
fn line_of(rules: Rules, packet: &Packet) -> Vec<u8> {
    let mut bytes = vec![packet.address, packet.command_byte];
    bytes.extend(packet.data);
    if rules.slips(Mistake::ExportsSum) {
        bytes.push(packet::sum(&bytes));
    }
    let mut numbers = hex::format(&bytes);
    if rules.slips(Mistake::ExportsLowerCase) {
        numbers = numbers.to_lowercase();
    }
    if rules.slips(Mistake::ExportsOneDigit) {
        numbers = format!(" {numbers}").replace(" 0", " ")[1..].to_string();
    }
    [WORD, b" ", numbers.as_bytes(), b"\n"].concat()
}

// ---- Mistakes alone ----------------------------------------------------

/// Whether a mistaken reader passes over the line.
fn is_skipped(rules: Rules, line: &[u8]) -> bool {
    line.is_empty() && rules.slips(Mistake::BlankLineSkipped)
        || line == WORD && rules.slips(Mistake::WordAloneSkipped)
}

/// The line as a mistaken reader sees it, who lets pass what the form does not.
fn indulged(rules: Rules, line: &[u8]) -> Cow<'_, [u8]> {
    let text = || String::from_utf8_lossy(line).into_owned();
    let changed = if rules.slips(Mistake::LowerWordTaken) {
        text().replacen("hex ", "HEX ", 1)
    } else if rules.slips(Mistake::TwoSpacesTaken) {
        text().replace("  ", " ")
    } else if rules.slips(Mistake::SpaceBeforeTaken) {
        text().trim_start_matches(' ').to_string()
    } else if rules.slips(Mistake::SpaceBehindTaken) {
        text().trim_end_matches(' ').to_string()
    } else if rules.slips(Mistake::TabTaken) {
        text().replace('\t', " ")
    } else if rules.slips(Mistake::ReturnTaken) {
        text().trim_end_matches('\r').to_string()
    } else {
        return Cow::Borrowed(line);
    };
    Cow::Owned(changed.into_bytes())
}

/// Where a list's next packet starts: where the last one ended, but for a
/// mistaken export.
fn next_start(rules: Rules, list: &[u8], end: usize) -> usize {
    if !rules.slips(Mistake::HeaderCutsList) {
        return end;
    }
    let next = (1..list.len()).find(|at| list[*at] == HEADER);
    next.unwrap_or(list.len())
}

/// What follows a packet whose sum is wrong.
fn behind_damaged(rules: Rules, list: &[u8]) -> &[u8] {
    packet::frame(rules, list).map_or(&[], |packet| &list[packet.end..])
}

/// Why a packet doesn't read, as a mistaken export tells it.
fn told(rules: Rules, refusal: Refusal) -> Refusal {
    match refusal {
        Refusal::NoHeader if rules.slips(Mistake::NoHeaderGives1) => Refusal::Short,
        _ => refusal,
    }
}

/// What the lines before the first one at fault give.
fn packets_before_fault(rules: Rules, sheet: &[u8]) -> Vec<u8> {
    let lines = lines(rules, sheet).into_iter();
    lines
        .map_while(|line| packet_of(rules, line))
        .flatten()
        .collect()
}

/// What the packets before the first one that doesn't read give.
fn lines_before_fault(rules: Rules, list: &[u8]) -> Vec<u8> {
    lines_of(rules, &walk(rules, list).0)
}

/// As much of some bytes as a buffer has room for.
fn spill(buffer: &mut [u8], bytes: &[u8]) {
    buffer
        .iter_mut()
        .zip(bytes)
        .for_each(|(to, byte)| *to = *byte);
}
