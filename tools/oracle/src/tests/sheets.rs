//! Request 1: its examples, its laws by random trying, and the programs
//! `import`, `export` and `play`.

use super::last_answer;
use crate::cases_sheets::{self, further_exports, further_imports, further_plays};
use crate::make_sheets::{
    faulty_sheet, line, line_of, list, list_of_length, make_export, make_import, misread_list,
    packet, sheet, sheet_of_length,
};
use crate::prng::Prng;
use crate::refusal::{number_of, Refusal};
use crate::rules::Rules;
use crate::sheet::{export, import, packets, sheet_of, Fault, Refused, MOST_SHEET};
use crate::trials::Trials;
use crate::{bench, hex, make_play, make_trials, play};

const RIGHT: Rules = Rules::RIGHT;

/// What a lent buffer holds before a call.
const LENT: u8 = 0x55;

/// The list that a sheet gives, all of it right.
fn imported(sheet: &[u8]) -> Vec<u8> {
    packets(RIGHT, sheet).expect("a right sheet").concat()
}

/// The sheet that a list gives, all packets of which read.
fn exported(list: &[u8]) -> Vec<u8> {
    sheet_of(RIGHT, list).expect("packets that read")
}

// ---- Examples ---------------------------------------------------------

/// A line `40` for a text.
fn import_line(room: &str, text: &str) -> String {
    format!("40 {room} {}", hex::format(text.as_bytes()))
        .trim_end()
        .to_string()
}

#[test]
fn sheets_imported() {
    for (room, text, answer) in [
        ("05 00", "HEX 01 13 04", "00 05 00 AA 01 13 04 18"),
        ("04 00", "HEX 1 e\n", "00 04 00 AA 01 0E 0F"),
        ("06 00", "HEX 1 05", "00 04 00 AA 01 05 06 55 55"),
        ("00 00", "", "00 00 00"),
        ("01 00", "\n", "0E 01 00 55"),
        ("02 00", "HEX 1 E\nHEX 001 E", "0E 02 00 55 55"),
        ("00 00", "HEX 1 E\nHEX 1", "0E 02 00"),
        ("03 00", "HEX 1 E", "05 00 00 55 55 55"),
    ] {
        assert_eq!(last_answer(&[&import_line(room, text)]), answer, "{text:?}");
    }
    assert_eq!(last_answer(&[&import_line("01 02", "")]), "FF");
}

#[test]
fn packets_exported() {
    for (line, answer) in [
        (
            "41 0A 00 AA 01 0E 0F",
            "00 0A 00 48 45 58 20 30 31 20 30 45 0A",
        ),
        ("41 01 00", "00 00 00 55"),
        ("41 01 00 AA 01 0E 0F", "05 00 00 55"),
        ("41 01 00 AA 01 0E 0F AA", "01 00 00 55"),
        ("41 01 00 AA 01 0E 0F 00", "02 00 00 55"),
        ("41 01 00 AA 01 0E 10 00", "04 00 00 55"),
    ] {
        assert_eq!(last_answer(&[line]), answer, "{line}");
    }
}

/// SUMS by hand: three bytes 55 give a = FF and b = 55 + AA + FF.
#[test]
fn long_lines_are_summed() {
    for (line, answer) in [
        ("42 03 00 00 00 00 00", "00 00 00 00 FF 00 FE 01"),
        ("42 03 00 00 02 00 00", "00 00 00 00 FF 00 FE 01"),
        ("42 03 00 00 02 00 01 0A", "0E 01 00 00 FF 00 FE 01"),
        (
            "43 03 00 00 01 00 04 AA 01 0E 0F",
            "05 00 00 00 FF 00 FE 01",
        ),
        ("43 03 00 00 00 00 04 AA 01 0E", "FF"),
        ("43 01 80 01 00 00 00", "FF"),
    ] {
        assert_eq!(last_answer(&[line]), answer, "{line}");
    }
}

/// Sheets of 64 KiB, one byte more, and more than a line may make; and what
/// 8192 packets are as a sheet.
#[test]
fn long_sheets_are_summed() {
    let nop = hex::format(b"HEX 1 E\n");
    for (line, answer) in [
        (
            format!("42 00 80 00 00 20 08 {nop}"),
            "00 00 80 00 00 00 00 C0",
        ),
        (
            format!("42 00 80 00 00 20 08 {nop} 0A"),
            "06 00 00 00 00 80 00 40",
        ),
        (format!("42 00 80 00 00 22 08 {nop} 0A"), "FF"),
        (
            "43 00 80 01 00 20 04 AA 01 0E 0F".to_string(),
            "00 00 40 01 00 E0 00 40",
        ),
    ] {
        assert_eq!(last_answer(&[&line]), answer, "{line}");
    }
}

/// Lines `40` to `43` don't touch the session.
#[test]
fn sheets_leave_the_session() {
    let mut trials = Trials::new(RIGHT);
    let mut tried = 0;
    for line in hex::lines(&make_trials::make(9, 2000)) {
        let before = trials.session.clone();
        trials.answer(line);
        if line.starts_with(b"4") {
            assert_eq!(trials.session, before);
            tried += 1;
        }
    }
    assert!(tried > 40, "{tried} lines");
}

// ---- Laws -------------------------------------------------------------

/// "An exported packet imports as itself."
#[test]
fn an_export_imports_as_itself() {
    let mut prng = Prng::new(1);
    for _ in 0..3000 {
        let list = list(&mut prng, 12);
        let mut sheet = vec![LENT; 12 * 55];
        let length = export(RIGHT, &list, &mut sheet).expect("room for 12 lines");
        let mut back = vec![LENT; list.len()];
        assert_eq!(import(RIGHT, &sheet[..length], &mut back), Ok(list.len()));
        assert_eq!(back, list);
    }
    for length in [4, 19, 20, 16384, 20000] {
        let list = list_of_length(&mut prng, length);
        assert_eq!(list.len(), length);
        assert_eq!(imported(&exported(&list)), list);
    }
}

/// "Importing and exporting a sheet twice equals once while it stays within
/// 64 KiB."
#[test]
fn a_second_round_changes_nothing() {
    let mut prng = Prng::new(2);
    for round in 0..2000 {
        let sheet = match round % 100 {
            0 => {
                let length = 8 + prng.below(MOST_SHEET);
                sheet_of_length(&mut prng, length)
            }
            _ => sheet(&mut prng, 20),
        };
        let once = exported(&imported(&sheet));
        match packets(RIGHT, &once) {
            Ok(packets) => assert_eq!(exported(&packets.concat()), once),
            Err(fault) => assert!(fault == Fault::TooLong && once.len() > MOST_SHEET),
        }
    }
}

/// However a packet is typed, it is that packet.
#[test]
fn a_typed_packet_is_imported() {
    let mut prng = Prng::new(3);
    for _ in 0..3000 {
        let packet = packet(&mut prng);
        let line = line_of(&mut prng, &packet);
        assert_eq!(imported(&line), packet);
    }
}

/// 14 has the first line at fault, whatever stands before and behind, and comes
/// before 5; nothing is written.
#[test]
fn the_first_fault_is_numbered() {
    let mut prng = Prng::new(4);
    for _ in 0..5000 {
        let (sheet, first) = faulty_sheet(&mut prng, 9);
        let mut buffer = vec![LENT; prng.below(200)];
        let refused = Refused {
            refusal: Refusal::NotAHexLine,
            line: first,
        };
        let text = String::from_utf8_lossy(&sheet);
        assert_eq!(import(RIGHT, &sheet, &mut buffer), Err(refused), "{text:?}");
        assert!(buffer.iter().all(|byte| *byte == LENT));
    }
}

/// A refusal leaves the buffer; an import or export that is done leaves its
/// rest, and needs no more room than it fills.
#[test]
fn a_buffer_is_filled_or_left() {
    let mut prng = Prng::new(5);
    for round in 0..4000 {
        let mut buffer = vec![LENT; prng.below(120)];
        let room = buffer.len();
        let (number, needed, written) = if round % 2 == 0 {
            let sheet = sheet(&mut prng, 8);
            let whole = imported(&sheet);
            let result = import(RIGHT, &sheet, &mut buffer);
            (
                result.map_err(|refused| refused.refusal),
                whole.len(),
                whole,
            )
        } else {
            let list = list(&mut prng, 8);
            let whole = exported(&list);
            (export(RIGHT, &list, &mut buffer), whole.len(), whole)
        };
        if needed <= room {
            assert_eq!(number, Ok(needed));
            assert_eq!(buffer[..needed], written);
            assert!(buffer[needed..].iter().all(|byte| *byte == LENT));
        } else {
            assert_eq!(number, Err(Refusal::NoRoom));
            assert!(buffer.iter().all(|byte| *byte == LENT));
        }
    }
}

/// A list that doesn't read: the packets before the fault do, what follows it
/// makes no difference but to a cut, and nothing is written.
#[test]
fn the_first_packet_that_does_not_read() {
    let mut prng = Prng::new(6);
    let mut seen = [0; 5];
    for _ in 0..5000 {
        let list = misread_list(&mut prng, 12);
        let mut buffer = vec![LENT; prng.below(400)];
        let Err(misread) = sheet_of(RIGHT, &list) else {
            continue; // spoilt into another list that reads
        };
        assert_eq!(export(RIGHT, &list, &mut buffer), Err(misread.refusal));
        assert!(buffer.iter().all(|byte| *byte == LENT));
        let before: Vec<usize> = (0..=list.len())
            .filter(|end| sheet_of(RIGHT, &list[..*end]).is_ok())
            .collect();
        assert_eq!(
            before.len(),
            misread.packet,
            "a list for each packet that reads"
        );
        seen[usize::from(misread.refusal.number())] += 1;
    }
    assert_eq!([seen[0], seen[3]], [0, 0]);
    assert!(
        [seen[1], seen[2], seen[4]].iter().all(|count| *count > 300),
        "{seen:?}"
    );
}

/// The number that a walk by the ends of line `11` stops with: 0 at the list's
/// end.
fn walked(trials: &mut Trials, list: &[u8]) -> u8 {
    let mut start = 0;
    while start < list.len() {
        let answer = trials.try_bytes(&[&[0x11], &list[start..]].concat());
        match answer.as_deref() {
            Some([0, end, ..]) => start += usize::from(*end),
            Some([number]) => return *number,
            other => panic!("no answer to a line 11: {other:?}"),
        }
    }
    0
}

/// Walking a list by the ends reaches its end exactly where export accepts it,
/// and stops with export's number otherwise.
#[test]
fn export_walks_by_the_ends() {
    let mut prng = Prng::new(10);
    let mut trials = Trials::new(RIGHT);
    for round in 0..3000 {
        let list = match round % 2 {
            0 => list(&mut prng, 12),
            _ => misread_list(&mut prng, 12),
        };
        let exported = number_of(&export(RIGHT, &list, &mut [LENT; 24 * 55]));
        assert_eq!(walked(&mut trials, &list), exported, "{list:02X?}");
    }
}

#[test]
fn sizes_are_exact() {
    let mut prng = Prng::new(7);
    for length in [8, 9, 55, 56, 63, 64, 1000, MOST_SHEET, MOST_SHEET + 1] {
        let sheet = sheet_of_length(&mut prng, length);
        assert_eq!(sheet.len(), length);
        match packets(RIGHT, &sheet) {
            Ok(_) => assert!(length <= MOST_SHEET),
            Err(fault) => assert!(length > MOST_SHEET && fault == Fault::TooLong),
        }
    }
    // 6 comes before 14 and before 5.
    let line = line(&mut prng);
    let longer = [line.repeat(MOST_SHEET / line.len() + 1), b"hex".to_vec()].concat();
    let refused = Err(Refusal::OffRange.into());
    assert_eq!(import(RIGHT, &longer, &mut []), refused);
}

// ---- The programs -----------------------------------------------------

/// What a program tells of an input by its name.
fn told(run: fn(Rules, &[u8]) -> Result<Vec<u8>, String>, input: &[u8]) -> String {
    match run(RIGHT, input) {
        Ok(bytes) => format!("{} bytes", bytes.len()),
        Err(complaint) => complaint,
    }
}

#[test]
fn stored_inputs_are_accepted() {
    let packets = crate::import::run(RIGHT, &cases_sheets::import()).expect("accepted");
    let sheet = crate::export::run(RIGHT, &cases_sheets::export()).expect("accepted");
    let played = play::run(RIGHT, &cases_sheets::play()).expect("accepted");
    assert!(packets.len() > 200 && sheet.len() > 1000);
    let text = String::from_utf8(played).expect("text");
    assert_eq!(text.lines().count(), 42);
    for answer in ["00 00", "-", "collision"] {
        assert!(text.lines().any(|line| line == answer), "{answer}");
    }
}

#[test]
fn import_tells() {
    for (name, input) in further_imports() {
        let expected = match name {
            "empty" => "0 bytes",
            "manual" => "5 bytes",
            "unended" => "8 bytes",
            "newline-alone" | "return" | "not-text" | "long-line" => "line 1: not a HEX line",
            "lower-word" | "two-faults" => "line 2: not a HEX line",
            "count-7" => "line 7: not a HEX line",
            "blank-last" => "line 11: not a HEX line",
            "fault-8192" => "line 8192: not a HEX line",
            "size-65536" => "32768 bytes",
            _ => "the sheet is longer than 64 KiB",
        };
        assert_eq!(told(crate::import::run, &input), expected, "{name}");
    }
}

#[test]
fn export_tells() {
    for (name, input) in further_exports() {
        let expected = match name {
            "empty" => "0 bytes",
            "one" => "10 bytes",
            "cut-short" => "packet 3: cut short",
            "cut-at-once" => "packet 1: cut short",
            "no-header" => "packet 3: no header",
            "no-header-at-once" => "packet 1: no header",
            "wrong-sum" => "packet 3: wrong sum",
            "wrong-sum-at-once" => "packet 1: wrong sum",
            "left-over" => "packet 2: no header",
            "packet-16384" => "packet 16384: wrong sum",
            "size-65536" => "163840 bytes",
            _ => "more than 64 KiB of packets",
        };
        assert_eq!(told(crate::export::run, &input), expected, "{name}");
    }
}

#[test]
fn play_tells() {
    for (name, input) in further_plays() {
        let expected = match name {
            "count-alone" | "count-ended" => "0 bytes",
            "document" => "18 bytes",
            "pass" => "50 bytes",
            "regroup" => "74 bytes",
            "walk-of-31" => "186 bytes",
            "bench-form" | "blank-line" => "line 1: not a HEX line",
            "line-2" => "line 2: not a HEX line",
            "size-65536-faulty" => "line 8192: not a HEX line",
            "form-65535" => "10922 bytes",
            "form-65537" | "size-65536" => "more than 64 KiB in the bench's form",
            "size-65537" => "the sheet is longer than 64 KiB",
            _ => "the first line is not a node count, 1 to 31",
        };
        assert_eq!(told(play::run, &input), expected, "{name}");
    }
}

/// What is played is what the bench program prints for the packets.
#[test]
fn play_is_import_and_bench() {
    let mut prng = Prng::new(8);
    for _ in 0..300 {
        let sheet = sheet(&mut prng, 30);
        let mut text = "3\n".to_string();
        for packet in packets(RIGHT, &sheet).expect("a right sheet") {
            text += &(hex::format(&packet) + "\n");
        }
        let played = play::run(RIGHT, &[b"3\n", &sheet[..]].concat());
        let printed = bench::run(RIGHT, text.as_bytes());
        assert_eq!(played, Ok(printed.into_bytes()));
    }
}

/// Made inputs are accepted and refused in every way.
#[test]
fn made_inputs_tell_everything() {
    let mut imports = Vec::new();
    let mut exports = Vec::new();
    let mut plays = Vec::new();
    for seed in 0..200 {
        imports.push(told(crate::import::run, &make_import(seed, 40)));
        exports.push(told(crate::export::run, &make_export(seed, 40)));
        plays.push(told(play::run, &make_play::make(seed, 40)));
    }
    for (told, endings) in [
        (imports, &["bytes", "not a HEX line", "than 64 KiB"][..]),
        (
            exports,
            &["bytes", "cut short", "no header", "wrong sum", "of packets"],
        ),
        (
            plays,
            &[
                "bytes",
                "1 to 31",
                "than 64 KiB",
                "HEX line",
                "bench's form",
            ],
        ),
    ] {
        for ending in endings {
            let count = told.iter().filter(|one| one.ends_with(ending)).count();
            assert!(count >= 5, "{ending}: {count}");
        }
    }
}
