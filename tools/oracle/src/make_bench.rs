//! Seeded inputs for the bench program.

use crate::bench::Bench;
use crate::hex;
use crate::make_packets;
use crate::prng::Prng;
use crate::rules::Rules;

/// First lines that are no count.
const BAD_COUNTS: [&str; 12] = [
    "0",
    "32",
    "02",
    "",
    " 2",
    "2 ",
    "+2",
    "2\r",
    "x",
    "1F",
    "999999999999",
    "3.0",
];

/// An input of at most so many packet lines, within 64 KiB.
pub fn make(seed: u64, lines: usize) -> Vec<u8> {
    let mut prng = Prng::new(seed);
    let (count, mut input) = count_line(&mut prng);
    let mut bench = Bench::new(Rules::RIGHT, usize::from(count));
    let (before, deaf) = match prng.percent(30) {
        true => (prng.below(lines.max(1)), true),
        false => (lines, false),
    };
    let room = hex::MOST_INPUT - input.len();
    input.extend(packet_lines(&mut prng, &mut bench, before, room));
    // Nodes that are set to another divisor hear no line any more.
    let line = pace_line(&mut prng, &mut bench);
    if deaf && input.len() + line.len() <= hex::MOST_INPUT {
        bench.answer(line.trim_ascii_end());
        input.extend(line);
        let room = hex::MOST_INPUT - input.len();
        input.extend(packet_lines(&mut prng, &mut bench, lines - before, room));
    }
    if prng.percent(30) {
        input.pop();
    }
    input
}

/// A count and the first line that gives it; now and then the line is no count.
pub fn count_line(prng: &mut Prng) -> (u8, Vec<u8>) {
    let count = if prng.percent(70) {
        prng.between(1, 6)
    } else {
        prng.between(1, 31)
    };
    let text = match prng.below(16) {
        0 => prng.pick(&BAD_COUNTS).to_string(),
        _ => count.to_string(),
    };
    (count, format!("{text}\n").into_bytes())
}

/// Packet lines for a bench, each ended by a newline, within a number of
/// bytes. The bench is kept along so that the packets meet nodes.
pub fn packet_lines(
    prng: &mut Prng,
    bench: &mut Bench,
    lines: usize,
    most_bytes: usize,
) -> Vec<u8> {
    let mut input = Vec::new();
    for _ in 0..lines {
        let line = line(prng, bench);
        if input.len() + line.len() + 1 > most_bytes {
            break;
        }
        bench.answer(&line);
        input.extend(line);
        input.push(b'\n');
    }
    input
}

/// A line with a Set Baud Rate, mostly to a group.
fn pace_line(prng: &mut Prng, bench: &mut Bench) -> Vec<u8> {
    let packet = make_packets::pace_packet(prng, &bench.nodes);
    format!("{}\n", hex::format(&packet)).into_bytes()
}

/// One line: a packet, now and then malformed or very long.
fn line(prng: &mut Prng, bench: &Bench) -> Vec<u8> {
    let packet = make_packets::packet(prng, &bench.nodes);
    match prng.below(200) {
        0..=7 => malform(prng, hex::format(&packet).into_bytes()),
        8 => {
            let more = prng.below(300);
            hex::format(&[packet, prng.telling_bytes(more)].concat()).into_bytes()
        }
        _ => hex::format(&packet).into_bytes(),
    }
}

/// A line that is not of its form.
pub fn malform(prng: &mut Prng, mut line: Vec<u8>) -> Vec<u8> {
    if line.is_empty() {
        return prng.pick(&[" ", "\r", "\t", "A", "-"]).into();
    }
    let place = prng.below(line.len());
    match prng.below(10) {
        0 => line.insert(0, b' '),
        1 => line.push(b' '),
        2 => line.push(b'\r'),
        3 => drop(line.pop()),
        4 => line.insert(place, b' '),
        5 => line.insert(place, b'0'),
        6 => line[place] = prng.pick(b"Gg/:@`xa\t-"),
        7 => line[place] = 0xC4,
        8 => line.splice(0..0, *b"0x").for_each(drop),
        _ => line.make_ascii_lowercase(),
    }
    line
}
