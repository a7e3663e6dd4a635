//! Seeded inputs for the program `play`.

use crate::bench::Bench;
use crate::hex;
use crate::make_bench::count_line;
use crate::make_packets;
use crate::make_sheets::{faulty_sheet, line_of, sheet, sheet_of_length};
use crate::packet::read;
use crate::prng::Prng;
use crate::rules::Rules;
use crate::sheet::MOST_SHEET;

/// A count and a sheet of at most so many lines but for those of about 64 KiB,
/// here or in the bench program's form.
pub fn make(seed: u64, lines: usize) -> Vec<u8> {
    let mut prng = Prng::new(seed);
    let (count, first) = count_line(&mut prng);
    let sheet = match prng.below(16) {
        0 => sheet_of_length(&mut prng, MOST_SHEET),
        1 => sheet_of_length(&mut prng, MOST_SHEET + 1),
        2 => {
            let length = MOST_SHEET - 8000 + prng.below(6000);
            sheet_of_length(&mut prng, length)
        }
        3..=5 => faulty_sheet(&mut prng, lines).0,
        6 => sheet(&mut prng, lines),
        _ => rehearsal(&mut prng, count, lines),
    };
    [first, sheet].concat()
}

/// A sheet whose packets meet nodes: a bench of so many is kept along.
fn rehearsal(prng: &mut Prng, count: u8, lines: usize) -> Vec<u8> {
    let mut bench = Bench::new(Rules::RIGHT, usize::from(count));
    let mut sheet = Vec::new();
    for _ in 0..lines {
        let bytes = make_packets::packet(prng, &bench.nodes);
        let Ok(packet) = read(Rules::RIGHT, &bytes) else {
            continue; // no sheet gives such a packet
        };
        let packet = &bytes[..packet.end];
        bench.answer(hex::format(packet).as_bytes());
        sheet.extend(line_of(prng, packet));
        sheet.push(b'\n');
    }
    if prng.percent(30) {
        sheet.pop();
    }
    sheet
}
