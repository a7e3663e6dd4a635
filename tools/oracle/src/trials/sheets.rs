//! Sheets: lines `40` to `43`, which don't touch the session.

use super::FILL;
use crate::layout::{self, Cursor};
use crate::refusal::{number_of, Refusal, DONE};
use crate::rules::{Mistake, Rules};
use crate::sheet::{self, Refused};

/// The largest `room(2)`.
pub const MOST_ROOM: usize = 0x0200;

/// The largest `room(3)`.
pub const MOST_LONG_ROOM: usize = 0x01_8000;

/// The longest sheet that a line `42` makes: longer than any that is taken.
pub const MOST_LONG_SHEET: usize = 69_632;

/// The longest list that a line `43` makes.
pub const MOST_LONG_LIST: usize = 32_768;

/// `40 room(2) text..`
pub fn import(rules: Rules, mut line: Cursor) -> Option<Vec<u8>> {
    let mut buffer = lent(line.wide::<2>()?, MOST_ROOM)?;
    let sheet = line.rest();
    let imported = sheet::import(rules, sheet, &mut buffer);
    let (number, value) = import_answer(rules, sheet, imported);
    Some([&[number], &layout::wide::<2>(value)[..], &buffer].concat())
}

/// `41 room(2) packets..`
pub fn export(rules: Rules, mut line: Cursor) -> Option<Vec<u8>> {
    let mut buffer = lent(line.wide::<2>()?, MOST_ROOM)?;
    let exported = sheet::export(rules, line.rest(), &mut buffer);
    let (number, value) = export_answer(exported);
    Some([&[number], &layout::wide::<2>(value)[..], &buffer].concat())
}

/// `42 room(3) times(2) len unit*len tail..`
pub fn long_import(rules: Rules, mut line: Cursor) -> Option<Vec<u8>> {
    let mut buffer = lent(line.wide::<3>()?, MOST_LONG_ROOM)?;
    let sheet = copies(line, MOST_LONG_SHEET)?;
    let imported = sheet::import(rules, &sheet, &mut buffer);
    let (number, value) = import_answer(rules, &sheet, imported);
    Some([&[number], &layout::wide::<3>(value)[..], &sums(&buffer)].concat())
}

/// `43 room(3) times(2) len unit*len tail..`
pub fn long_export(rules: Rules, mut line: Cursor) -> Option<Vec<u8>> {
    let mut buffer = lent(line.wide::<3>()?, MOST_LONG_ROOM)?;
    let list = copies(line, MOST_LONG_LIST)?;
    let exported = sheet::export(rules, &list, &mut buffer);
    let (number, value) = export_answer(exported);
    Some([&[number], &layout::wide::<3>(value)[..], &sums(&buffer)].concat())
}

/// A lent buffer, filled; None for more room than there may be.
fn lent(room: usize, most: usize) -> Option<Vec<u8>> {
    (room <= most).then(|| vec![FILL; room])
}

/// "The length written; for 0E the line's number from 1; for other refusals
/// 0000."
fn import_answer(rules: Rules, sheet: &[u8], imported: Result<usize, Refused>) -> (u8, usize) {
    match imported {
        Ok(length) => (DONE, length),
        Err(refused) => (refused.refusal.number(), shown_with(rules, sheet, refused)),
    }
}

/// The value of a refused import: the line's number, which is 0 but for 0E.
fn shown_with(rules: Rules, sheet: &[u8], refused: Refused) -> usize {
    match refused.refusal {
        Refusal::NoRoom if rules.slips(Mistake::NoRoomMeasured) => {
            sheet::packets(rules, sheet).map_or(0, |packets| packets.concat().len())
        }
        Refusal::OffRange if rules.slips(Mistake::LongSheetMeasured) => sheet.len(),
        _ => refused.line,
    }
}

/// "The length written, 0000 for a refusal."
fn export_answer(exported: Result<usize, Refusal>) -> (u8, usize) {
    (number_of(&exported), exported.unwrap_or(0))
}

/// `times(2) len unit*len tail..`: so many copies of the unit, then the tail;
/// None for more bytes in all than there may be.
fn copies(mut line: Cursor, most: usize) -> Option<Vec<u8>> {
    let times = line.wide::<2>()?;
    let length = usize::from(line.byte()?);
    let unit = line.take(length)?;
    let tail = line.rest();
    let fits = times * length + tail.len() <= most;
    fits.then(|| [&unit.repeat(times), tail].concat())
}

/// SUMS, `a(2) b(2)`, which stand for the whole lent buffer: "for each byte
/// a = (a + byte) mod 65536, then b = (b + a) mod 65536".
pub fn sums(buffer: &[u8]) -> [u8; 4] {
    let (a, b) = buffer.iter().fold((0u16, 0u16), |(a, b), byte| {
        let a = a.wrapping_add(u16::from(*byte));
        (a, b.wrapping_add(a))
    });
    let ([a0, a1], [b0, b1]) = (a.to_le_bytes(), b.to_le_bytes());
    [a0, a1, b0, b1]
}
