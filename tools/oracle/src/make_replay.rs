//! Seeded inputs for the program `replay`: the texts of recordings.

use crate::hex;
use crate::kind::Kind;
use crate::make_bench::{count_line, malform};
use crate::make_recordings::{let_fall, recording, right};
use crate::packet::whole;
use crate::prng::Prng;
use crate::recording::{Capture, Line, Recording};
use crate::replay::text::MOST_TEXT;

/// A recording of at most so many packets but for those of about 64 KiB.
pub fn make(seed: u64, packets: usize) -> Vec<u8> {
    let mut prng = Prng::new(seed);
    let few = 1 + prng.below(packets.max(1));
    match prng.below(24) {
        0 => of_length(&mut prng, MOST_TEXT),
        1 => of_length(&mut prng, MOST_TEXT + 1),
        2 => {
            let recording = right(&mut prng, few);
            let first = bad_first_line(&mut prng, &recording);
            let runs = runs(&mut prng, &recording, 70);
            [first, ended(&mut prng, &runs)].concat()
        }
        3..=5 => faulty(&mut prng, few),
        6..=7 => falling(&mut prng, few),
        8..=13 => {
            let right = right(&mut prng, few);
            text(&mut prng, &right)
        }
        _ => {
            let mut any = recording(&mut prng, few);
            any.commands = evened(any.commands);
            any.replies = evened(any.replies);
            text(&mut prng, &any)
        }
    }
}

/// The first line of a recording: the node count, alone where all are gates, else
/// with their kinds, which gates may have, too.
fn first_line(prng: &mut Prng, recording: &Recording) -> Vec<u8> {
    let gates = recording.kinds.iter().all(|kind| *kind == Kind::Gate);
    let mut line = recording.nodes.to_string();
    if !gates || prng.percent(30) {
        recording
            .kinds
            .iter()
            .for_each(|kind| line += &format!(" {}", name(*kind)));
    }
    format!("{line}\n").into_bytes()
}

fn name(kind: Kind) -> &'static str {
    match kind {
        Kind::Gate => "gate",
        Kind::Drive => "drive",
    }
}

/// A first line that is mostly none: of the bench program, without its last kind,
/// with one too many, with a kind or a space that isn't of the form.
fn bad_first_line(prng: &mut Prng, recording: &Recording) -> Vec<u8> {
    let kinds = recording
        .kinds
        .iter()
        .map(|kind| format!(" {}", name(*kind)));
    let kinds: String = kinds.collect();
    let nodes = recording.nodes;
    match prng.below(8) {
        0..=2 => count_line(prng).1,
        3 => {
            let shorter = kinds.rsplit_once(' ').map_or("", |(shorter, _)| shorter);
            format!("{nodes}{shorter}\n").into_bytes()
        }
        4 => format!("{nodes}{kinds} gate\n").into_bytes(),
        5 => format!(
            "{nodes}{}\n",
            kinds.replace("drive", "Drive").replacen("gate", "lift", 1)
        )
        .into_bytes(),
        _ => {
            let line = format!("{nodes}{kinds}").into_bytes();
            [malform(prng, line), b"\n".to_vec()].concat()
        }
    }
}

/// A text in which a time mostly falls.
fn falling(prng: &mut Prng, packets: usize) -> Vec<u8> {
    let mut recording = right(prng, packets);
    let times = match prng.percent(50) {
        true => &mut recording.replies.times,
        false => &mut recording.commands.times,
    };
    let_fall(prng, times);
    let runs = runs(prng, &recording, 0);
    let first = first_line(prng, &recording);
    [first, ended(prng, &runs)].concat()
}

/// As many times as bytes: a text has no others.
fn evened(mut capture: Capture) -> Capture {
    let count = capture.bytes.len().min(capture.times.len());
    capture.bytes.truncate(count);
    capture.times.truncate(count);
    capture
}

/// The text of a recording. The last line may lack its newline.
fn text(prng: &mut Prng, recording: &Recording) -> Vec<u8> {
    let runs = runs(prng, recording, 70);
    let first = first_line(prng, recording);
    [first, ended(prng, &runs)].concat()
}

/// Lines with their newlines, but now and then for the last.
fn ended(prng: &mut Prng, lines: &[Vec<u8>]) -> Vec<u8> {
    let mut text = lines.join(&b'\n');
    if !lines.is_empty() && !prng.percent(25) {
        text.push(b'\n');
    }
    text
}

/// The runs of both lines: so many times out of a hundred by their times, else
/// one line behind the other.
fn runs(prng: &mut Prng, recording: &Recording, by_times: usize) -> Vec<Vec<u8>> {
    let commands = runs_of(prng, recording, Line::Command);
    let replies = runs_of(prng, recording, Line::Reply);
    let mut all: Vec<(u32, Vec<u8>)> = [commands, replies].concat();
    if prng.percent(by_times) {
        all.sort_by_key(|(time, _)| *time);
    }
    all.into_iter().map(|(_, run)| run).collect()
}

/// The runs of one line; now and then one is two, which says the same.
fn runs_of(prng: &mut Prng, recording: &Recording, line: Line) -> Vec<(u32, Vec<u8>)> {
    let capture = recording.capture(line);
    let mark = match line {
        Line::Command => '>',
        Line::Reply => '<',
    };
    let mut runs: Vec<(u32, Vec<u8>)> = Vec::new();
    for (time, byte) in capture.times.iter().zip(&capture.bytes) {
        match runs.last_mut() {
            Some((last, bytes)) if last == time && !prng.percent(2) => bytes.push(*byte),
            _ => runs.push((*time, vec![*byte])),
        }
    }
    let lines = runs.into_iter().map(|(time, bytes)| {
        let line = format!("{mark} {time} {}", hex::format(&bytes));
        (time, line.into_bytes())
    });
    lines.collect()
}

/// A text with up to three lines that are no runs.
fn faulty(prng: &mut Prng, packets: usize) -> Vec<u8> {
    let recording = right(prng, packets);
    let mut runs = runs(prng, &recording, 70);
    for _ in 0..1 + prng.below(3) {
        let place = prng.below(runs.len() + 1);
        let bad = bad_run(prng);
        match runs.get_mut(place) {
            Some(run) if prng.percent(40) => *run = malform(prng, run.clone()),
            _ => runs.insert(place, bad),
        }
    }
    let first = first_line(prng, &recording);
    [first, ended(prng, &runs)].concat()
}

/// A line with one fault; some take the word from another.
fn bad_run(prng: &mut Prng) -> Vec<u8> {
    let bad = [
        "",
        " ",
        ">",
        "<",
        "> ",
        "> 5",
        "> 5 ",
        "<5 00 00",
        "= 5 00",
        "5 > 00",
        "00 00",
        "> 05 00",
        "> 00 00",
        "> -1 00",
        "> +1 00",
        "> 1.5 00",
        "> 4294967296 00",
        "< 99999999999999999999 00",
        "> 5  00",
        ">  5 00",
        " > 5 00",
        "> 5 00 ",
        "> 5 0",
        "> 5 000",
        "> 5 0G",
        "> 5 aa",
        "> 5 0x00",
        "> 5 00\r",
        ">\t5 00",
        "> 5\t00",
        "> 5 00 Nop",
        "# > 5 00",
        "HEX 01 0E",
        "> 5 00,00",
        "> A 00",
        "2",
    ];
    prng.pick(&bad).into()
}

/// A text of so many bytes: exchanges, then a run that fills it up.
fn of_length(prng: &mut Prng, length: usize) -> Vec<u8> {
    let nodes = prng.between(1, 3);
    let mut text = format!("{nodes}\n");
    let mut time = 0;
    for node in 1..=nodes {
        let packet = whole(0x00, 0x1, &[node, 0xFF]);
        text += &format!("> {time} {}\n< {time} 00 00\n", hex::format(&packet));
        time += 2;
    }
    while text.len() + 200 < length {
        let data = prng.telling_bytes(2);
        let packet = whole(prng.between(1, nodes), 0x6, &data);
        text += &format!("> {time} {}\n", hex::format(&packet));
        if prng.percent(80) {
            text += &format!(
                "< {} {}\n",
                time + 1,
                prng.pick(&["00 00", "02 02", "00 01"])
            );
        }
        time += 2 + prng.below(3);
    }
    fill_up(text, length).into_bytes()
}

/// A last run on the reply line, with as many digits and bytes as make the text
/// so long.
pub fn fill_up(text: String, length: usize) -> String {
    let left = length - text.len() - "< \n".len();
    let digits = 8 + (left + 1) % 3;
    let time = &"4111111111"[..digits];
    format!("{text}< {time}{}\n", " 00".repeat((left - digits) / 3))
}
