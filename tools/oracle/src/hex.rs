//! Lines of bytes: "two-digit capitals, single spaces".

use crate::rules::{Mistake, Rules};

/// The most input that the programs read: 64 KiB.
pub const MOST_INPUT: usize = 64 * 1024;

/// "A newline ends each line; the last may lack it."
pub fn lines(input: &[u8]) -> Vec<&[u8]> {
    let mut lines: Vec<&[u8]> = input.split(|byte| *byte == b'\n').collect();
    if lines.last().is_some_and(|last| last.is_empty()) {
        lines.pop();
    }
    lines
}

/// The bytes of a line, or None where it is not of its form. An empty line
/// is of the form and has no bytes.
pub fn parse(rules: Rules, line: &[u8]) -> Option<Vec<u8>> {
    if line.is_empty() {
        return Some(Vec::new());
    }
    line.split(|byte| *byte == b' ')
        .map(|word| match word {
            [high, low] => Some(digit(rules, *high)? << 4 | digit(rules, *low)?),
            _ => None,
        })
        .collect()
}

/// Reads a line into a lent buffer "as far as it has room", and answers how
/// many bytes the line has. A malformed line leaves the buffer as it stood.
pub fn read_into(rules: Rules, line: &[u8], buffer: &mut [u8]) -> Option<usize> {
    if rules.slips(Mistake::BrokenLineFills) {
        let words = line.split(|byte| *byte == b' ');
        let whole = words.map_while(|word| parse(rules, word)).flatten();
        buffer
            .iter_mut()
            .zip(whole)
            .for_each(|(to, byte)| *to = byte);
    }
    let bytes = parse(rules, line)?;
    let kept = bytes.len().min(buffer.len());
    buffer[..kept].copy_from_slice(&bytes[..kept]);
    Some(match rules.slips(Mistake::RoomCounted) {
        true => kept,
        false => bytes.len(),
    })
}

fn digit(rules: Rules, character: u8) -> Option<u8> {
    match character {
        b'0'..=b'9' => Some(character - b'0'),
        b'A'..=b'F' => Some(character - b'A' + 10),
        b'a'..=b'f' if rules.slips(Mistake::LowerCaseTaken) => Some(character - b'a' + 10),
        _ => None,
    }
}

/// The line of some bytes, without newline.
pub fn format(bytes: &[u8]) -> String {
    const DIGITS: &[u8; 16] = b"0123456789ABCDEF";
    let mut line = String::with_capacity(3 * bytes.len());
    for byte in bytes {
        if !line.is_empty() {
            line.push(' ');
        }
        for digit in [byte >> 4, byte & 0x0F] {
            line.push(char::from(DIGITS[usize::from(digit)]));
        }
    }
    line
}
