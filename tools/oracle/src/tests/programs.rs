//! The programs at the edges of their input, and what `edges` tries.

use super::last_answer;
use crate::cases_bench::further_inputs;
use crate::hex::MOST_INPUT;
use crate::rules::Rules;
use crate::{bench, edges, trials};

fn bench_output(input: &[u8]) -> String {
    bench::run(Rules::RIGHT, input)
}

#[test]
fn bench_counts() {
    for (name, input) in further_inputs() {
        let output = bench_output(&input);
        match name {
            "document" | "document-unended" => assert_eq!(output.lines().count(), 5),
            "walk-of-31" => assert_eq!(output, "00 00\n".repeat(31)),
            "walk-of-1" => assert_eq!(output, "00 00\n-\n"),
            "full-speed" => assert_eq!(output, "00 00\n".repeat(2) + &"-\n".repeat(6)),
            "count-alone" | "count-ended" => assert_eq!(output, ""),
            "empty-packet" => assert_eq!(output, "refused 1\n"),
            _ => assert_eq!(output, "refused 6\n", "{name}"),
        }
    }
}

#[test]
fn bench_reads_64_kib() {
    let mut input = b"1\n".to_vec();
    input.resize(MOST_INPUT, b'\n');
    assert_eq!(bench_output(&input).lines().count(), MOST_INPUT - 2);
    input.push(b'\n');
    assert_eq!(bench_output(&input), "refused 6\n");
}

#[test]
fn bench_takes_the_longest_line() {
    let mut input = b"1\nAA".to_vec();
    while input.len() + 3 <= MOST_INPUT {
        input.extend(b" 0E");
    }
    assert_eq!(bench_output(&input), "refused 3\n");
    input[2] = b'B';
    assert_eq!(bench_output(&input), "refused 2\n");
}

#[test]
fn bench_goes_on_after_malformed_lines() {
    for bad in [
        "aa 01 0E 0F",
        "AA  01",
        "AA 01 0E 0F\r",
        "\0",
        " ",
        "A",
        "AA 01 0E 0F ",
    ] {
        let output = bench_output(format!("1\n{bad}\nAA 00 0E 0E\n").as_bytes());
        assert_eq!(output, "refused 6\n00 00\n", "{bad:?}");
    }
    assert_eq!(bench_output(b"1\n\xC4\x84\n"), "refused 6\n");
}

#[test]
fn trials_reads_64_kib() {
    let mut input = vec![b'\n'; MOST_INPUT];
    assert_eq!(trials::run(Rules::RIGHT, &input), "FF\n".repeat(MOST_INPUT));
    input.push(b'\n');
    assert_eq!(trials::run(Rules::RIGHT, &input), "FF\n");
    assert_eq!(trials::run(Rules::RIGHT, b""), "");
}

#[test]
fn a_shown_session_can_be_handed_in() {
    let lines = ["30 02 00 00", "31 06 3F", "36", "37"];
    let shown = last_answer(&lines);
    let hand_in = format!("38{}", &shown[2..]);
    assert_eq!(last_answer(&[hand_in.as_str(), "37"]), shown);
    let unknown_bit = format!("{}FF", &hand_in[..hand_in.len() - 2]);
    assert_eq!(last_answer(&[unknown_bit.as_str()]), "FF");
}

#[test]
fn no_nodes_and_open_counts_as_ready() {
    let entries = " 00 3F 00 FF 00 00 00 00 00 00 00 00 00 00 00 7F".repeat(31);
    let hand_in = format!("38 01 00 00 00{entries}");
    for (line, answer) in [
        ("31 00 3F", "09"),
        ("32 00 3F", "09"),
        ("33 04 3F 01 80 00 0E", "00 AA 80 0E 8E"),
        ("33 00 3F 00 01 00 0E", "0A"),
        ("34 00 3F 01 7F 01", "06"),
        ("34 00 3F 01 80 01", "0A"),
        ("36", "08"),
    ] {
        assert_eq!(last_answer(&[hand_in.as_str(), line]), answer, "{line}");
    }
}

/// A call of each kind that is refused or cut short, and one that is not.
#[test]
fn edges_of_every_kind() {
    let output = edges::run(Rules::RIGHT);
    for line in [
        "order Set Address, walk and node 02 01:06 00 55 55 55 55 55",
        "order Set Address, walk and node 03 01:0C 00 55 55 55 55 55",
        "order Set Baud Rate, walk and address 02 FF:06 00 55 55 55 55 55",
        "order Set Baud Rate, walk and address 03 FF:0C 00 55 55 55 55 55",
        "order Set Baud Rate, divisor and data 00 0A:06 00 55 55 55 55 55",
        "build Set Baud Rate, kind and address 01 FF:00 05 AA FF 1A 0A 23",
        "build Nop, kind and address 00 7F:00 04 AA 7F 0E 8D 55",
        "build Nop, kind and address 00 80:06 00 55 55 55 55 55",
        "build Nop, kind and address 01 7F:06 00 55 55 55 55 55",
        "build Set Address, address and group 7F 80:05 00 55 55 55 55 55",
        "build Set Address, address and group 80 80:06 00 55 55 55 55 55",
        "read a line, from and characters 00 05:00 02 01 02 55 55 55",
        "read a line, from and characters 00 14:00 07 01 02 03 04 05",
        "read a line, from and characters 00 16:06 00 55 55 55 55 55",
        "look, n and node 20 1F:00 00 55 55 55 55 55",
        "look, n and node 20 20:0A 00 55 55 55 55 55",
    ] {
        assert!(output.lines().any(|own| own == line), "{line}");
    }
}
