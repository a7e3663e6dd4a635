//! Movement sheets as one writes them in Rust: a pass that checks and measures,
//! so that a refusal leaves the lent buffer, and a pass that writes. Nothing is
//! allocated.

/// The longest sheet.
const MOST_SHEET: usize = 64 * 1024;

/// The most bytes of a line: address, command byte, 15 data bytes.
const MOST_LINE: usize = 17;

const HEADER: u8 = 0xAA;
const WORD: &[u8] = b"HEX ";

/// A refusal's number, and with 14 the line's; with others 0.
#[derive(Clone, Copy, Debug, PartialEq)]
pub struct Refused {
    pub number: u8,
    pub line: usize,
}

impl Refused {
    pub const fn with(number: u8) -> Refused {
        Refused { number, line: 0 }
    }
}

/// The packets of a sheet, back to back, at the start of the buffer; how many
/// bytes these are.
pub fn import(sheet: &[u8], out: &mut [u8]) -> Result<usize, Refused> {
    if sheet.len() > MOST_SHEET {
        return Err(Refused::with(6));
    }
    let mut needed = 0;
    for (index, line) in lines(sheet).enumerate() {
        let line = Line::parse(line).ok_or(Refused {
            number: 14,
            line: index + 1,
        })?;
        needed += line.bytes().len() + 2;
    }
    let out = out.get_mut(..needed).ok_or(Refused::with(5))?;
    let mut rest = out;
    for line in lines(sheet).filter_map(Line::parse) {
        rest = line.put_packet(rest);
    }
    Ok(needed)
}

/// The lines of a text, without their newlines; the last may lack it.
fn lines(text: &[u8]) -> impl Iterator<Item = &[u8]> {
    text.split_inclusive(|byte| *byte == b'\n')
        .map(|line| line.strip_suffix(b"\n").unwrap_or(line))
}

/// The bytes of a line of a sheet.
struct Line {
    bytes: [u8; MOST_LINE],
    count: usize,
}

impl Line {
    /// None where the line isn't of its form, or hasn't as many data bytes as
    /// its command byte says.
    fn parse(line: &[u8]) -> Option<Line> {
        let mut bytes = [0; MOST_LINE];
        let mut count = 0;
        let mut rest = line.strip_prefix(WORD)?;
        loop {
            let (value, behind) = match *rest {
                [one] => (digit(one)?, None),
                [one, b' ', ref behind @ ..] => (digit(one)?, Some(behind)),
                [high, low] => (digit(high)? << 4 | digit(low)?, None),
                [high, low, b' ', ref behind @ ..] => {
                    (digit(high)? << 4 | digit(low)?, Some(behind))
                }
                _ => return None,
            };
            *bytes.get_mut(count)? = value;
            count += 1;
            match behind {
                Some(behind) => rest = behind,
                None => break,
            }
        }
        (count == 2 + usize::from(bytes[1] >> 4)).then_some(Line { bytes, count })
    }

    fn bytes(&self) -> &[u8] {
        &self.bytes[..self.count]
    }

    /// Writes its packet, which has room; what is left of the buffer.
    fn put_packet<'a>(&self, out: &'a mut [u8]) -> &'a mut [u8] {
        let bytes = self.bytes();
        let (packet, rest) = out.split_at_mut(bytes.len() + 2);
        packet[0] = HEADER;
        packet[1..=bytes.len()].copy_from_slice(bytes);
        packet[bytes.len() + 1] = sum(bytes);
        rest
    }
}

/// The value of each character that is a hex digit of either case; 16 for all
/// others. Which of the three kinds of digit comes next can't be guessed, so
/// that a table is much quicker than tests.
const VALUES: [u8; 256] = {
    let mut values = [16; 256];
    let mut value = 0;
    while value < 16 {
        values[b"0123456789ABCDEF"[value] as usize] = value as u8;
        values[b"0123456789abcdef"[value] as usize] = value as u8;
        value += 1;
    }
    values
};

fn digit(character: u8) -> Option<u8> {
    let value = VALUES[usize::from(character)];
    (value < 16).then_some(value)
}

fn sum(bytes: &[u8]) -> u8 {
    bytes.iter().fold(0, |sum, byte| sum.wrapping_add(*byte))
}

/// The lines of packets that stand back to back, at the start of the buffer;
/// how many bytes these are.
pub fn export(packets: &[u8], out: &mut [u8]) -> Result<usize, Refused> {
    let mut needed = 0;
    let mut rest = packets;
    while !rest.is_empty() {
        let (packet, behind) = first(rest).map_err(Refused::with)?;
        if sum(packet.bare) != packet.sum {
            return Err(Refused::with(4));
        }
        needed += WORD.len() + 3 * packet.bare.len();
        rest = behind;
    }
    let mut out = out.get_mut(..needed).ok_or(Refused::with(5))?;
    let mut rest = packets;
    while let Ok((packet, behind)) = first(rest) {
        out = put_line(packet.bare, out);
        rest = behind;
    }
    Ok(needed)
}

/// A packet: its bytes without header and sum, and the sum that it has.
struct Packet<'a> {
    bare: &'a [u8],
    sum: u8,
}

/// The first of some packets, whatever its sum, and what follows it; or why it
/// is none.
fn first(packets: &[u8]) -> Result<(Packet<'_>, &[u8]), u8> {
    match *packets {
        [] => Err(1),
        [HEADER, ref rest @ ..] => {
            let count = usize::from(rest.get(1).ok_or(1)? >> 4);
            let (bare, rest) = rest.split_at_checked(2 + count).ok_or(1)?;
            let (sum, rest) = rest.split_first().ok_or(1)?;
            Ok((Packet { bare, sum: *sum }, rest))
        }
        _ => Err(2),
    }
}

/// Writes a line that has room; what is left of the buffer.
fn put_line<'a>(bare: &[u8], out: &'a mut [u8]) -> &'a mut [u8] {
    const DIGITS: &[u8; 16] = b"0123456789ABCDEF";
    let (line, rest) = out.split_at_mut(WORD.len() + 3 * bare.len());
    let (word, numerals) = line.split_at_mut(WORD.len());
    word.copy_from_slice(WORD);
    for (numeral, byte) in numerals.chunks_exact_mut(3).zip(bare) {
        numeral[0] = DIGITS[usize::from(byte >> 4)];
        numeral[1] = DIGITS[usize::from(byte & 0x0F)];
        numeral[2] = b' ';
    }
    numerals[3 * bare.len() - 1] = b'\n';
    rest
}
