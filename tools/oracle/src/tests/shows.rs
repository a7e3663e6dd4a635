//! What `shows/README.md` prints for the rehearsals, sheets and recordings of `shows/`
//! is what is played and replayed.

use crate::bench;
use crate::cases_replay;
use crate::cases_sheets::further_plays;
use crate::play;
use crate::replay;
use crate::rules::Rules;

/// The document that prints them, each with its outputs.
const DOCUMENT: &str = include_str!("../../../../shows/README.md");

/// The table under a file's heading: of each row what it prints of the input, and what
/// of the output, as lines.
fn table(file: &str) -> Vec<(String, String)> {
    let heading = format!("## {file}: ");
    DOCUMENT
        .lines()
        .skip_while(|line| !line.starts_with(&heading))
        .skip(1)
        .take_while(|line| !line.starts_with("## "))
        .filter(|line| line.starts_with("| ") && !line.contains("| Output |"))
        .map(|row| {
            let row = cells(row);
            (quoted(&row[1]), quoted(&row[2]))
        })
        .collect()
}

/// A rehearsal, its packets and its output, as the document prints them; a row that
/// quotes no packet has the empty one.
#[test]
fn rehearsals_are_played_as_printed() {
    for (name, text) in [
        ("two-gates", include_str!("../../../../shows/two-gates.txt")),
        (
            "addressing",
            include_str!("../../../../shows/addressing.txt"),
        ),
        ("group", include_str!("../../../../shows/group.txt")),
        ("lost-sum", include_str!("../../../../shows/lost-sum.txt")),
        ("collision", include_str!("../../../../shows/collision.txt")),
        (
            "full-speed",
            include_str!("../../../../shows/full-speed.txt"),
        ),
    ] {
        let (mut packets, mut output) = (String::new(), String::new());
        for (packet, answer) in table(&format!("{name}.txt")) {
            packets += if packet.is_empty() { "\n" } else { &packet };
            output += &answer;
        }
        let (_, lines) = text.split_once('\n').expect("a node count");
        assert_eq!(packets, lines, "{name}");
        assert_eq!(bench::run(Rules::RIGHT, text.as_bytes()), output, "{name}");
    }
}

/// The node count, the sheet and its outputs, as the document prints them.
#[test]
fn sheets_are_played_as_printed() {
    for (name, nodes) in [("pass", 2), ("regroup", 3)] {
        let command = format!("./sheet play {nodes} shows/{name}.hex");
        assert!(DOCUMENT.contains(&command), "{command}");
        let (mut sheet, mut outputs) = (format!("{nodes}\n"), String::new());
        for (line, output) in table(&format!("{name}.hex")) {
            sheet += &line;
            outputs += &output;
        }
        let mut inputs = further_plays().into_iter();
        let (_, input) = inputs.find(|(own, _)| *own == name).expect("its name");
        assert_eq!(String::from_utf8_lossy(&input), sheet, "{name}");
        let played = play::run(Rules::RIGHT, &input).expect("accepted");
        assert_eq!(String::from_utf8_lossy(&played), outputs, "{name}");
    }
}

/// The cells of a table's row between unescaped bars, `\|` being a bar.
fn cells(row: &str) -> Vec<String> {
    row.replace("\\|", "\u{1}")
        .split('|')
        .map(|cell| cell.trim().replace('\u{1}', "|"))
        .collect()
}

/// What stands between backquotes in a cell, a line each.
fn quoted(cell: &str) -> String {
    let parts = cell.split('`').skip(1).step_by(2);
    parts.map(|part| format!("{part}\n")).collect()
}

/// The recordings of `shows/`, their runs and what is written of them, as the
/// document prints them.
#[test]
fn recordings_are_replayed_as_printed() {
    for (name, first, text) in [
        (
            "lost-reply",
            "2",
            include_str!("../../../../shows/lost-reply.txt"),
        ),
        (
            "missed-pass",
            "2",
            include_str!("../../../../shows/missed-pass.txt"),
        ),
        ("ask", "2", include_str!("../../../../shows/ask.txt")),
        (
            "carousel",
            "3 gate gate drive",
            include_str!("../../../../shows/carousel.txt"),
        ),
    ] {
        let mut inputs = cases_replay::further().into_iter();
        let (_, input) = inputs.find(|(own, _)| *own == name).expect("its name");
        assert_eq!(String::from_utf8_lossy(&input), text, "{name}");
        let (mut runs, mut output) = (format!("{first}\n"), String::new());
        for (run, line) in table(&format!("{name}.txt")) {
            runs += &run;
            output += &line;
        }
        assert_eq!(runs, text, "{name}");
        let written = replay::run(Rules::RIGHT, text.as_bytes()).expect("accepted");
        assert_eq!(String::from_utf8_lossy(&written), output, "{name}");
    }
}
