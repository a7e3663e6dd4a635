//! The sheets of a story: imports, exports, and lists that an import has just
//! given, exported again.

use super::Story;
use crate::layout::wide;
use crate::make_sheets::{faulty_sheet, list, misread_list, packet, sheet, sheet_of_length};
use crate::rules::Rules;
use crate::sheet::{packets, sheet_of, MOST_SHEET};
use crate::trials::sheets::{MOST_LONG_LIST, MOST_LONG_ROOM, MOST_LONG_SHEET, MOST_ROOM};

/// The most lines or packets that are written out: a character of a sheet takes
/// three of a story.
const MOST_WRITTEN: usize = 4;

impl Story {
    pub fn sheet_line(&mut self) -> Vec<u8> {
        match self.prng.below(100) {
            0..=44 => self.import_line(),
            45..=79 => self.export_line(),
            80..=89 => self.long_import_line(),
            90..=95 => self.long_export_line(),
            _ => self.misformed_sheet_line(),
        }
    }

    /// `40`; what it gives is mostly exported next.
    fn import_line(&mut self) -> Vec<u8> {
        let sheet = match self.prng.percent(45) {
            true => faulty_sheet(&mut self.prng, MOST_WRITTEN).0,
            false => sheet(&mut self.prng, MOST_WRITTEN),
        };
        let given = packets(Rules::RIGHT, &sheet).map(|packets| packets.concat());
        let room = self.wide_room(given.as_ref().map_or(8, Vec::len), MOST_ROOM);
        if self.prng.percent(70) {
            self.imported = given.ok();
        }
        [&[0x40], &wide::<2>(room)[..], &sheet].concat()
    }

    fn export_line(&mut self) -> Vec<u8> {
        let list = match self.prng.percent(45) {
            true => misread_list(&mut self.prng, MOST_WRITTEN * 2),
            false => list(&mut self.prng, MOST_WRITTEN * 2),
        };
        self.export_of(&list)
    }

    /// `41` of this list.
    pub fn export_of(&mut self, list: &[u8]) -> Vec<u8> {
        let needed = sheet_of(Rules::RIGHT, list).map_or(16, |sheet| sheet.len());
        let room = self.wide_room(needed, MOST_ROOM);
        [&[0x41], &wide::<2>(room)[..], list].concat()
    }

    /// `42`, mostly of about 64 KiB, with or without a fault behind the copies.
    fn long_import_line(&mut self) -> Vec<u8> {
        let unit_length = 8 + self.prng.below(48);
        let unit = sheet_of_length(&mut self.prng, unit_length);
        let total = match self.prng.below(10) {
            0..=2 => MOST_SHEET,
            3..=5 => MOST_SHEET + 1,
            6 => MOST_LONG_SHEET + self.prng.below(2),
            _ => unit_length + 8 + self.prng.below(MOST_SHEET),
        };
        let times = (total - 8) / unit_length;
        let tail = match self.prng.percent(35) {
            true => faulty_sheet(&mut self.prng, 2).0,
            false => sheet_of_length(&mut self.prng, total - times * unit_length),
        };
        let whole = [unit.repeat(times), tail.clone()].concat();
        let given = packets(Rules::RIGHT, &whole).map_or(8, |packets| packets.concat().len());
        self.long_line(0x42, given, times, &unit, &tail)
    }

    /// `43`, up to twice as long as a sheet may be.
    fn long_export_line(&mut self) -> Vec<u8> {
        let unit = [list(&mut self.prng, 2), packet(&mut self.prng)].concat();
        let most = MOST_LONG_LIST / unit.len();
        let times = match self.prng.below(4) {
            0 => most + self.prng.below(2),
            _ => self.prng.below(most),
        };
        let tail = match self.prng.percent(40) {
            true => misread_list(&mut self.prng, 2),
            false => list(&mut self.prng, 2),
        };
        let whole = [unit.repeat(times), tail.clone()].concat();
        let given = sheet_of(Rules::RIGHT, &whole).map_or(16, |sheet| sheet.len());
        self.long_line(0x43, given, times, &unit, &tail)
    }

    fn long_line(
        &mut self,
        kind: u8,
        needed: usize,
        times: usize,
        unit: &[u8],
        tail: &[u8],
    ) -> Vec<u8> {
        let room = wide::<3>(self.wide_room(needed, MOST_LONG_ROOM));
        let length = [unit.len() as u8];
        [&[kind], &room[..], &wide::<2>(times), &length, unit, tail].concat()
    }

    /// Lines cut within their fixed fields, or whose unit is longer than they.
    fn misformed_sheet_line(&mut self) -> Vec<u8> {
        let line = match self.prng.between(0x40, 0x43) {
            kind @ (0x40 | 0x41) => vec![kind, 4, 0],
            kind => vec![kind, 4, 0, 0, 1, 0, 5, 0xAA, 1, 0xE, 0xF],
        };
        let kept = match line.len() {
            3 => 1 + self.prng.below(2),
            _ => self.prng.pick(&[1, 2, 3, 4, 5, 6, 7, 11]),
        };
        line[..kept].to_vec()
    }

    /// A room as `room` has it, in two bytes or three.
    fn wide_room(&mut self, needed: usize, most: usize) -> usize {
        let needed = needed.min(most);
        match self.prng.below(100) {
            0..=54 => needed,
            55..=67 => needed.saturating_sub(1),
            68..=72 => 0,
            73..=74 => most + 1 + self.prng.below(200),
            75 => most,
            _ => (needed + self.prng.below(12)).min(most),
        }
    }
}
