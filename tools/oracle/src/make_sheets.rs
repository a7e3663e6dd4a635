//! Seeded sheets and lists of packets, right ones and faulty ones; and the
//! inputs of the programs `import` and `export`.

use std::ops::RangeInclusive;

use crate::hex;
use crate::make_packets::{damage, misshape};
use crate::packet::whole;
use crate::prng::Prng;
use crate::sheet::MOST_SHEET;

/// A sheet for the program `import`, of at most so many lines but for those of
/// 64 KiB and more.
pub fn make_import(seed: u64, lines: usize) -> Vec<u8> {
    let mut prng = Prng::new(seed);
    match prng.below(16) {
        0 => sheet_of_length(&mut prng, MOST_SHEET),
        1 => sheet_of_length(&mut prng, MOST_SHEET + 1),
        2..=7 => faulty_sheet(&mut prng, lines).0,
        _ => sheet(&mut prng, lines),
    }
}

/// A list for the program `export`, of at most so many packets but for those of
/// 64 KiB and more.
pub fn make_export(seed: u64, packets: usize) -> Vec<u8> {
    let mut prng = Prng::new(seed);
    match prng.below(16) {
        0 => list_of_length(&mut prng, hex::MOST_INPUT),
        1 => list_of_length(&mut prng, hex::MOST_INPUT + 1),
        2..=7 => misread_list(&mut prng, packets),
        _ => list(&mut prng, packets),
    }
}

/// Lengths within a range that add up to a total.
fn lengths(prng: &mut Prng, range: RangeInclusive<usize>, total: usize) -> Vec<usize> {
    let (least, most) = range.into_inner();
    let mut lengths = Vec::new();
    let mut left = total;
    while left > most {
        let length = least + prng.below(most.min(left - least) - least + 1);
        lengths.push(length);
        left -= length;
    }
    lengths.push(left);
    lengths
}

// ---- Lists ------------------------------------------------------------

/// Any packet that reads; those with few data bytes are common.
pub fn packet(prng: &mut Prng) -> Vec<u8> {
    let most = prng.pick(&[3, 3, 15]);
    let count = prng.below(most + 1);
    packet_of_count(prng, count)
}

fn packet_of_count(prng: &mut Prng, count: usize) -> Vec<u8> {
    let data = prng.telling_bytes(count);
    whole(prng.telling_byte(), prng.between(0, 15), &data)
}

/// A list of at most so many packets, all of which read.
pub fn list(prng: &mut Prng, most: usize) -> Vec<u8> {
    let count = prng.below(most + 1);
    (0..count).flat_map(|_| packet(prng)).collect()
}

/// A list whose last packet is cut short, as only the last can be; or one with
/// a packet or two spoilt, which may change how those behind them are read.
pub fn misread_list(prng: &mut Prng, most: usize) -> Vec<u8> {
    let mut spoilt = list(prng, most / 2);
    if prng.percent(25) {
        let packet = packet(prng);
        let kept = 1 + prng.below(packet.len() - 1);
        spoilt.extend(&packet[..kept]);
        return spoilt;
    }
    for _ in 0..1 + prng.below(2) {
        let packet = packet(prng);
        spoilt.extend(match prng.percent(40) {
            true => damage(prng, packet),
            false => misshape(prng, packet),
        });
        spoilt.extend(list(prng, most / 4));
    }
    spoilt
}

/// A list of so many bytes, all packets of which read.
pub fn list_of_length(prng: &mut Prng, length: usize) -> Vec<u8> {
    lengths(prng, 4..=19, length)
        .into_iter()
        .flat_map(|length| packet_of_count(prng, length - 4))
        .collect()
}

// ---- Sheets -----------------------------------------------------------

/// A sheet of at most so many lines, all of them right; few are empty.
pub fn sheet(prng: &mut Prng, most: usize) -> Vec<u8> {
    let count = match prng.percent(5) {
        true => 0,
        false => most.min(1 + prng.below(most.max(1))),
    };
    let lines: Vec<Vec<u8>> = (0..count).map(|_| line(prng)).collect();
    joined(prng, &lines)
}

/// A sheet with up to three lines at fault, and the number of the first.
pub fn faulty_sheet(prng: &mut Prng, most: usize) -> (Vec<u8>, usize) {
    let count = 1 + prng.below(most.max(1));
    let mut lines: Vec<Vec<u8>> = (0..count).map(|_| line(prng)).collect();
    let mut first = count;
    for _ in 0..1 + prng.below(3) {
        let place = prng.below(count);
        lines[place] = bad_line(prng);
        first = first.min(place + 1);
    }
    (joined(prng, &lines), first)
}

/// A sheet of so many bytes, all lines of which are right.
pub fn sheet_of_length(prng: &mut Prng, length: usize) -> Vec<u8> {
    lengths(prng, 8..=55, length)
        .into_iter()
        .flat_map(|length| line_of_length(prng, length))
        .collect()
}

/// Lines with their newlines; the last may lack it, unless it is blank and
/// would be no line.
fn joined(prng: &mut Prng, lines: &[Vec<u8>]) -> Vec<u8> {
    let mut sheet: Vec<u8> = lines
        .iter()
        .flat_map(|line| [line, &b"\n"[..]].concat())
        .collect();
    let ends_in_text = lines.last().is_some_and(|last| !last.is_empty());
    if ends_in_text && prng.percent(30) {
        sheet.pop();
    }
    sheet
}

/// A line of any packet, without newline.
pub fn line(prng: &mut Prng) -> Vec<u8> {
    let packet = packet(prng);
    line_of(prng, &packet)
}

/// A line of this packet, without newline.
pub fn line_of(prng: &mut Prng, packet: &[u8]) -> Vec<u8> {
    words_of(prng, packet).join(" ").into_bytes()
}

/// The word, then address, command byte and data with as many digits and in
/// such case as somebody may type.
fn words_of(prng: &mut Prng, packet: &[u8]) -> Vec<String> {
    let mut words = vec!["HEX".to_string()];
    for number in &packet[1..packet.len() - 1] {
        let digits = 1 + prng.below(2);
        words.push(typed(prng, *number, digits));
    }
    words
}

/// A number with at least so many digits.
fn typed(prng: &mut Prng, number: u8, digits: usize) -> String {
    let text = format!("{number:0digits$X}");
    match prng.below(3) {
        0 => text.to_lowercase(),
        _ => text,
    }
}

/// A right line of so many bytes, 8 to 55, its newline included.
fn line_of_length(prng: &mut Prng, length: usize) -> Vec<u8> {
    // A command byte that counts data has two digits.
    let shortest = |count: usize| 8 + 2 * count + usize::from(count > 0);
    let longest = |count: usize| 10 + 3 * count;
    let counts: Vec<usize> = (0..16)
        .filter(|count| (shortest(*count)..=longest(*count)).contains(&length))
        .collect();
    let count = prng.pick(&counts);
    let mut digits = vec![1; count + 2];
    digits[1] += usize::from(count > 0);
    for _ in shortest(count)..length {
        let narrow: Vec<usize> = (0..count + 2).filter(|at| digits[*at] == 1).collect();
        digits[prng.pick(&narrow)] = 2;
    }
    let mut line = "HEX".to_string();
    for (place, digits) in digits.into_iter().enumerate() {
        let number = match place {
            1 => (count as u8) << 4 | prng.between(0, 15),
            _ if digits == 1 => prng.between(0, 15),
            _ => prng.telling_byte(),
        };
        line = format!("{line} {}", typed(prng, number, digits));
    }
    (line + "\n").into_bytes()
}

/// A line with one fault, without newline.
pub fn bad_line(prng: &mut Prng) -> Vec<u8> {
    let packet = packet(prng);
    let mut words = words_of(prng, &packet);
    let place = 1 + prng.below(words.len() - 1);
    match prng.below(16) {
        0 => words[0] = prng.pick(&["hex", "Hex", "HE", "HEXX", "BDR", ""]).into(),
        1 => drop(words.remove(0)),
        2 => words = vec![prng.pick(&["", " ", "\r", "\t"]).into()],
        3 => words.push(prng.pick(&["", "\r", ";", "# a Nop"]).into()),
        4 => words[place].push(prng.pick(&['\r', '\t', '\0', '\u{c4}', ' '])),
        5 => words.insert(0, String::new()),
        6 => words.insert(place, String::new()),
        7 => glue(&mut words, place, "\t"),
        8 => glue(&mut words, place, ""),
        9 => words[place] = format!("{:0>3}", words[place]),
        10 => words[place] = format!("0x{}", words[place]),
        11 => {
            words[place].pop();
            words[place].push(prng.pick(&['G', 'g', 'Z', '@', '`', '/', ':', '-']));
        }
        12 => words.truncate(1 + prng.below(2)),
        13 => drop(words.pop()),
        14 => words.push(typed(prng, 0xAA, 2)),
        _ => words.extend(vec!["0".to_string(); 16]), // a count that wraps
    }
    words.join(" ").into_bytes()
}

/// A word put to the one before it, with something else than a space between.
fn glue(words: &mut Vec<String>, place: usize, between: &str) {
    let word = words.remove(place);
    words[place - 1] += between;
    words[place - 1] += &word;
}
