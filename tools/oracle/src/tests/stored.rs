//! The stored cases and the generators: size, coverage, stability.

use std::collections::HashSet;

use super::fingerprint;
use crate::case;
use crate::cases::{self, LEFT_FREE, MOST_STORED};
use crate::cases_bench::further_inputs;
use crate::command::{COMMAND_BYTES, DRIVE_BYTES, SET_BAUD_RATE};
use crate::coverage::{answerable, Coverage};
use crate::divisor;
use crate::hex::{self, MOST_INPUT};
use crate::kind::Kind;
use crate::layout::node_bytes;
use crate::manuals::{self, DOCUMENTS, PRINTED, PRINTED_DIVISORS, PRINTED_STATUS};
use crate::node::Node;
use crate::rules::Rules;
use crate::{cases_replay, cases_sheets, layout};
use crate::{make_bench, make_play, make_replay, make_sheets, make_trials};

#[test]
fn the_stored_inputs_fit() {
    let further: usize = further_inputs().iter().map(|(_, input)| input.len()).sum();
    assert!(cases::bench().len() + further <= MOST_STORED);
    for stored in [cases::trials(), cases::carousels(), cases::divisors()] {
        assert!(stored.len() + LEFT_FREE <= MOST_STORED, "{}", stored.len());
    }
}

#[test]
fn the_stored_bench_input_covers() {
    let coverage = Coverage::of_bench(&cases::bench());
    for number in [0, 1, 2, 3, 6, 13] {
        assert!(coverage.numbers[number] >= 20, "number {number}");
    }
    assert_all_commands(&coverage, 10);
}

#[test]
fn the_stored_trials_input_covers() {
    let coverage = Coverage::of_trials(&cases::trials());
    // 17 needs drives, which `carousels` has; `divisors` has 18 and 19.
    let elsewhere = |number: &u8| (17..=19).contains(number);
    for number in answerable().into_iter().filter(|own| !elsewhere(own)) {
        let count = coverage.numbers[usize::from(number)];
        assert!(count >= 5, "number {number}: {count}");
    }
    assert!(coverage.followed >= 25);
    assert_all_commands(&coverage, 8);
}

/// Drives: 17 and the numbers about it, all that a drive has delivered and sent,
/// the five of its own in recordings, too.
#[test]
fn the_stored_carousels_input_covers() {
    let coverage = Coverage::of_trials(&cases::carousels());
    for (number, least) in [(0, 300), (1, 5), (3, 5), (5, 8), (6, 30), (9, 3), (10, 5)] {
        let count = coverage.numbers[number];
        assert!(count >= least, "number {number}: {count}");
    }
    for (number, least) in [(7, 3), (12, 3), (13, 1), (17, 30), (0xFF, 30)] {
        let count = coverage.numbers[number];
        assert!(count >= least, "number {number}: {count}");
    }
    for byte in DRIVE_BYTES {
        let count = coverage.drive_commands[usize::from(byte)];
        assert!(count >= 1, "{byte:02X}: {count}");
    }
    for byte in [0x21u8, 0x12, 0x13, 0x0E, 0x0F] {
        let count = coverage.drive_commands[usize::from(byte)];
        assert!(count >= 3, "{byte:02X}: {count}");
    }
    assert!(coverage.foreign >= 8, "{} ended", coverage.foreign);
    for byte in [0x00u8, 0x24, 0x54, 0x05, 0xE6, 0x17, 0x57] {
        let count = coverage.sent_to_drives[usize::from(byte)];
        assert!(count >= 1, "recorded {byte:02X}");
    }
}

/// Divisors: 18 and 19 and the numbers about them, and Set Baud Rate, delivered, sent
/// and in recordings, which it ends.
#[test]
fn the_stored_divisors_input_covers() {
    let coverage = Coverage::of_trials(&cases::divisors());
    for (number, least) in [(0, 300), (5, 7), (6, 6), (7, 7), (9, 7), (10, 2), (11, 2)] {
        let count = coverage.numbers[number];
        assert!(count >= least, "number {number}: {count}");
    }
    for (number, least) in [(12, 7), (13, 2), (17, 2), (18, 50), (19, 12), (0xFF, 15)] {
        let count = coverage.numbers[number];
        assert!(count >= least, "number {number}: {count}");
    }
    let paced = usize::from(SET_BAUD_RATE);
    assert!(coverage.commands[paced] >= 80 && coverage.drive_commands[paced] >= 4);
    assert!(coverage.foreign >= 8 && coverage.sent[paced] == 0);
}

/// Recordings: walked and refused by each number, ended by a command, and with
/// each of the eleven commands sent.
#[test]
fn the_stored_recordings_cover() {
    let coverage = Coverage::of_trials(&cases::trials());
    for number in [0, 6, 15, 16] {
        let count = coverage.walked[number];
        assert!(count >= 4, "number {number}: {count}");
    }
    assert!(coverage.foreign >= 12, "{} ended", coverage.foreign);
    for byte in COMMAND_BYTES {
        assert!(coverage.sent[usize::from(byte)] >= 1, "{byte:02X}");
    }
}

/// All eleven kinds so often at least, and every nibble in some way.
fn assert_all_commands(coverage: &Coverage, least: usize) {
    for byte in COMMAND_BYTES {
        assert!(coverage.commands[usize::from(byte)] >= least, "{byte:02X}");
    }
    for nibble in 0..16 {
        assert!((0..16).any(|count| coverage.commands[count << 4 | nibble] > 0));
    }
}

#[test]
fn made_inputs_cover_and_fit() {
    let (mut numbers, mut walked, mut sent) = ([0; 256], [0; 256], [0; 256]);
    let (mut drives, mut sent_to_drives) = ([0; 256], 0);
    let (mut followed, mut foreign) = (0, 0);
    for seed in 0..30 {
        let input = make_trials::make(seed, 5000);
        assert!(input.len() <= MOST_INPUT);
        let coverage = Coverage::of_trials(&input);
        for (sum, count) in numbers.iter_mut().zip(coverage.numbers) {
            *sum += count;
        }
        followed += coverage.followed;
        for (sum, count) in walked.iter_mut().zip(coverage.walked) {
            *sum += count;
        }
        for (sum, count) in sent.iter_mut().zip(coverage.sent) {
            *sum += count;
        }
        for (sum, count) in drives.iter_mut().zip(coverage.drive_commands) {
            *sum += count;
        }
        sent_to_drives += coverage.sent_to_drives.iter().sum::<usize>();
        foreign += coverage.foreign;
        assert!(make_bench::make(seed, 9000).len() <= MOST_INPUT);
    }
    // The rarest number, 15, comes 63 times.
    for number in answerable() {
        let count = numbers[usize::from(number)];
        assert!(count >= 30, "number {number}: {count}");
    }
    assert!(followed >= 300, "{followed} packets with bytes behind");
    for number in [0, 6, 15, 16] {
        let count = walked[number];
        assert!(count >= 10, "recordings, number {number}: {count}");
    }
    assert!(foreign >= 20, "{foreign} recordings ended by a command");
    for byte in COMMAND_BYTES {
        let count = sent[usize::from(byte)];
        assert!(count >= 1, "recorded {byte:02X}: {count}");
    }
    for byte in DRIVE_BYTES {
        let count = drives[usize::from(byte)];
        assert!(count >= 12, "to drives {byte:02X}: {count}");
    }
    assert!(
        sent_to_drives >= 20,
        "recorded, drives' own: {sent_to_drives}"
    );
}

/// Most lines of a made input are the host's calls, whatever else it tries.
#[test]
fn made_inputs_are_mostly_the_hosts() {
    for seed in 0..20 {
        let input = make_trials::make(seed, 1500);
        let lines = hex::lines(&input);
        let of_host = lines.iter().filter(|line| line.starts_with(b"3"));
        assert!(of_host.count() * 100 >= lines.len() * 70, "seed {seed}");
        assert!(lines.len() >= 750, "seed {seed}: {} lines", lines.len());
    }
}

/// A seed gives the same input on every machine, today and later.
#[test]
fn made_inputs_are_stable() {
    let sums = [
        fingerprint(&make_bench::make(1, 300)),
        fingerprint(&make_trials::make(1, 300)),
        fingerprint(&make_sheets::make_import(1, 300)),
        fingerprint(&make_sheets::make_export(1, 300)),
        fingerprint(&make_play::make(1, 300)),
        fingerprint(&make_replay::make(1, 300)),
        fingerprint(&cases::bench()),
        fingerprint(&cases::trials()),
        fingerprint(&cases::carousels()),
        fingerprint(&cases::divisors()),
        fingerprint(&cases_sheets::import()),
        fingerprint(&cases_sheets::export()),
        fingerprint(&cases_sheets::play()),
        fingerprint(&cases_replay::stored()),
    ];
    let expected = [
        0x4D6C_2285_6E43_5E2A,
        0x8B4B_9BE4_AFAB_97D7,
        0xDF8F_A4B1_9618_979E,
        0x0EED_5718_76AB_3719,
        0xB202_D76B_1410_CCCC,
        0xD934_5977_99F8_12C9,
        0xCAC1_09E1_0C6C_6D9B,
        0x2005_2688_6A17_98CD,
        0x2CC6_41FA_BC2E_B635,
        0x71FE_E6D0_9DF6_510C,
        0xE8E1_26BD_0890_90B0,
        0x96CB_430D_A3BA_0619,
        0xC638_55EC_D4C2_B67A,
        0x7555_21B4_9B3A_4380,
    ];
    assert_eq!(sums, expected, "{sums:#018X?}");
}

/// The packets that are wrong in print and don't read: where, and the number.
const MISPRINTS: [(&str, &str, &str); 5] = [
    ("000", "Commands, Examples: Set address", "4"),
    ("000", "Managing Two Servo-Drives, #10", "4"),
    ("000", "Managing Two Servo-Drives, #11", "4"),
    ("002", "Commands, Examples: Set address", "4"),
    ("004", "Missing motor detecting example, step 3", "4"),
];

/// Five packets are wrong in print and don't read; all others read, to their last
/// byte, and one of them is wrong for a drive.
#[test]
fn the_manuals_misprint_five_packets() {
    let wrong = PRINTED.iter().filter(|printed| printed.wrong.is_some());
    let (misread, read): (Vec<_>, Vec<_>) =
        wrong.partition(|printed| manuals::reading(printed.bytes).len() == 1);
    let found: Vec<_> = misread
        .iter()
        .map(|printed| {
            (
                printed.document,
                printed.section,
                manuals::reading(printed.bytes),
            )
        })
        .collect();
    assert_eq!(
        found,
        MISPRINTS.map(|(document, place, number)| (document, place, number.to_string()))
    );
    let places: Vec<_> = read.iter().map(|printed| printed.section).collect();
    assert_eq!(places, ["Procedure FindHomePosition, line 3"]);
    let read = PRINTED.iter().filter(|printed| {
        let end = case::bytes(printed.bytes).len();
        manuals::reading(printed.bytes).ends_with(&format!(", ends at {end}"))
    });
    assert_eq!(read.count() + MISPRINTS.len(), PRINTED.len());
}

/// A drive has every packet of its manual that reads, but for the one with another
/// count than its control byte makes and Set Homing Mode, which isn't ordered.
#[test]
fn a_drive_reads_its_manual() {
    let own = PRINTED.iter().filter(|printed| printed.document == "000");
    let read: Vec<_> = own
        .map(|printed| (printed.bytes, manuals::reading_by_drive(printed.bytes)))
        .collect();
    let others: Vec<&str> = read
        .iter()
        .filter(|(_, by_drive)| by_drive.as_deref() == Some("another command"))
        .map(|(bytes, _)| *bytes)
        .collect();
    let expected = ["AA 01 94 37 25 06 01 00 58 01 00 00 51", "AA 01 19 18 32"];
    assert_eq!(others, expected);
    let off_range = |by_drive: &Option<String>| {
        by_drive
            .as_deref()
            .is_some_and(|read| read.ends_with("off its range"))
    };
    assert!(!read.iter().any(|(_, by_drive)| off_range(by_drive)));
}

/// README.md's table of what a drive takes the packets of 000 for.
#[test]
fn the_table_of_what_a_drive_reads() {
    let readme = include_str!("../../README.md");
    let table = readme
        .lines()
        .skip_while(|line| !line.starts_with("| Printed in 000 |"))
        .skip(2)
        .take_while(|line| line.starts_with("| "));
    let mut rows = 0;
    for row in table {
        let cells: Vec<&str> = row.split(" | ").collect();
        let (bytes, says) = (cells[0].trim_matches(&['|', ' ', '`'][..]), cells[1]);
        assert!(PRINTED
            .iter()
            .any(|own| own.document == "000" && own.bytes == bytes));
        let read = manuals::reading_by_drive(bytes).expect("a packet that reads");
        let said = says.trim_end_matches(" |");
        let said = said.split_once(": ").map_or(said, |(said, _)| said);
        assert_eq!(read, said, "{bytes}");
        rows += 1;
    }
    assert_eq!(rows, 14);
}

/// Every packet that the manuals print is in the list, and in a stored case of
/// bench and of trials or carousels.
#[test]
fn the_manuals_packets_are_counted() {
    let count = |document| {
        PRINTED
            .iter()
            .filter(|one| one.document == document)
            .count()
    };
    assert_eq!(DOCUMENTS.map(count), [45, 27, 45, 29]);
    let cases = case::manual_cases("");
    let lines: usize = cases.iter().map(|case| case.lines.len()).sum();
    assert_eq!(lines, PRINTED.len());
    let stored = [cases::trials(), cases::carousels()].join(&b'\n');
    let stored: HashSet<&[u8]> = hex::lines(&stored).into_iter().collect();
    for printed in PRINTED {
        let line = format!("11 {}", printed.bytes);
        assert!(stored.contains(line.as_bytes()), "{line}");
    }
}

/// Each status packet that the manuals print reads under its mask.
#[test]
fn the_manuals_status_packets_read() {
    let list = manuals::list();
    let read = list.lines().filter(|line| line.contains(" | status "));
    assert_eq!(read.count(), PRINTED_STATUS.len());
    assert_eq!(PRINTED_STATUS.len(), 6);
}

/// The lists that 18 goes by are the manuals' tables.
#[test]
fn the_manuals_list_divisors() {
    for (kind, document) in [(Kind::Gate, "001"), (Kind::Drive, "000")] {
        let own = PRINTED_DIVISORS.iter();
        let own = own.filter(|row| row.document == document);
        let printed: Vec<u8> = own.map(|row| row.divisor).collect();
        assert_eq!(divisor::listed(kind), printed, "{document}");
    }
    let power_up = PRINTED_DIVISORS.iter().find(|row| row.baud_rate == 19_200);
    assert_eq!(power_up.map(|row| row.divisor), Some(divisor::POWER_UP));
    let line = "001 | Set Baud Rate, 115200 | 0A | to group FF: AA FF 1A 0A 23";
    assert!(manuals::list().lines().any(|own| own == line));
}

#[test]
fn a_node_record_has_31_bytes_or_63() {
    for kind in Kind::ALL {
        let node = Node::powered_up(Rules::RIGHT, kind);
        assert_eq!(layout::node(&node).len(), 2 + node_bytes(kind));
    }
}
