//! The program `play`: a node count, then a sheet; out goes what the bench
//! program prints for the sheet's packets.

use crate::bench;
use crate::hex;
use crate::import;
use crate::rules::{Mistake, Rules};
use crate::sheet::{self, Fault};

/// The most that is read: the longest count line, then the longest sheet.
pub const MOST_INPUT: usize = b"31\n".len() + sheet::MOST_SHEET;

/// What goes to standard output, or the one line that a refusal is told by.
pub fn run(rules: Rules, input: &[u8]) -> Result<Vec<u8>, String> {
    let (first, sheet) = parts(input);
    if rules.slips(Mistake::SheetBeforeCount) {
        packets(rules, input, sheet).map_err(import::complaint)?;
    }
    bench::count(rules, first).ok_or("the first line is not a node count, 1 to 31")?;
    let packets = packets(rules, input, sheet).map_err(import::complaint)?;
    let text = bench_text(first, &packets);
    if text.len() > hex::MOST_INPUT && !rules.slips(Mistake::LongTextPlayed) {
        return Err("more than 64 KiB in the bench's form".to_string());
    }
    Ok(bench::run(rules, &text).into_bytes())
}

/// The first line, and everything behind its newline.
fn parts(input: &[u8]) -> (&[u8], &[u8]) {
    match input.iter().position(|byte| *byte == b'\n') {
        Some(end) => (&input[..end], &input[end + 1..]),
        None => (input, &[]),
    }
}

/// The packets of the sheet, whose lines are numbered by themselves.
fn packets(rules: Rules, input: &[u8], sheet: &[u8]) -> Result<Vec<Vec<u8>>, Fault> {
    if rules.slips(Mistake::CountLineMeasured) && input.len() > sheet::MOST_SHEET {
        return Err(Fault::TooLong);
    }
    sheet::packets(rules, sheet).map_err(|fault| match fault {
        Fault::Line(line) if rules.slips(Mistake::CountLineNumbered) => Fault::Line(line + 1),
        _ => fault,
    })
}

/// The bench program's text: the count, then a packet a line, each line ended
/// by its newline.
fn bench_text(first: &[u8], packets: &[Vec<u8>]) -> Vec<u8> {
    let mut text = [first, b"\n"].concat();
    for packet in packets {
        text.extend(hex::format(packet).into_bytes());
        text.push(b'\n');
    }
    text
}
