//! The text of a recording: the node count, alone or with the kind of each node,
//! then a run of bytes a line.

use crate::bench;
use crate::hex;
use crate::kind::{gates, Kind};
use crate::recording::{falls, Capture, Line, Recording};
use crate::rules::{Mistake, Rules};

/// The longest text that is read: 64 KiB.
pub const MOST_TEXT: usize = hex::MOST_INPUT;

/// What is wrong with a text, in the sequence in which it is tested. Lines are
/// counted from 1 with the count's.
#[derive(Clone, Copy, Debug, PartialEq, Eq)]
pub enum Fault {
    TooLong,
    NoCount,
    /// The first line that is no run.
    NoRun(usize),
    /// "The first run whose time is less than that of the run before it on its
    /// line; where every line is of the form."
    TimeFalls(usize),
}

/// "Bytes of one line that follow each other with the same time are a run."
struct Run {
    line: Line,
    time: u32,
    bytes: Vec<u8>,
}

pub fn read(rules: Rules, text: &[u8]) -> Result<Recording, Fault> {
    let too_long = text.len() > most_text(rules);
    if too_long && !rules.slips(Mistake::TextBeforeLength) {
        return Err(Fault::TooLong);
    }
    let lines = hex::lines(text);
    let first = lines.first().copied().unwrap_or_default();
    let kinds = kinds(rules, first).ok_or(Fault::NoCount)?;
    let runs = runs(rules, lines.get(1..).unwrap_or_default())?;
    if let Some(place) = falling(rules, &runs) {
        return Err(Fault::TimeFalls(numbered(rules, place)));
    }
    if too_long {
        return Err(Fault::TooLong);
    }
    Ok(Recording {
        nodes: kinds.len() as u8,
        kinds,
        commands: captured(rules, &runs, Line::Command),
        replies: captured(rules, &runs, Line::Reply),
    })
}

fn most_text(rules: Rules) -> usize {
    if rules.slips(Mistake::TextOf65536Refused) {
        MOST_TEXT - 1
    } else if rules.slips(Mistake::TextOf65537Taken) {
        MOST_TEXT + 1
    } else {
        MOST_TEXT
    }
}

/// "The node count, alone (all nodes are LS-773), or with the kind of each node
/// behind it, `gate` .. or `drive` .., single spaces."
fn kinds(rules: Rules, line: &[u8]) -> Option<Vec<Kind>> {
    let mut words = line.split(|byte| *byte == b' ');
    let nodes = bench::count(rules, words.next()?)?;
    let kinds: Vec<Kind> = words.map(|word| kind(rules, word)).collect::<Option<_>>()?;
    match kinds.len() {
        0 => Some(gates(nodes)),
        _ => as_many(rules, kinds, nodes),
    }
}

fn kind(rules: Rules, word: &[u8]) -> Option<Kind> {
    match word {
        b"gate" => Some(Kind::Gate),
        b"drive" => Some(Kind::Drive),
        b"Drive" | b"DRIVE" if rules.slips(Mistake::KindCapitalsTaken) => Some(Kind::Drive),
        _ => None,
    }
}

/// "Exactly as many kinds as nodes"; a mistaken reader fills them up or cuts them.
fn as_many(rules: Rules, mut kinds: Vec<Kind>, nodes: usize) -> Option<Vec<Kind>> {
    if rules.slips(Mistake::FewerKindsTaken) && kinds.len() < nodes {
        kinds.resize(nodes, Kind::Gate);
    }
    if rules.slips(Mistake::MoreKindsTaken) {
        kinds.truncate(nodes);
    }
    (kinds.len() == nodes).then_some(kinds)
}

/// The line of a run's place, from 0, behind the count's.
fn numbered(rules: Rules, place: usize) -> usize {
    place + 2 - usize::from(rules.slips(Mistake::RunsNumberedAlone))
}

/// All lines as runs, or the first that is none.
fn runs(rules: Rules, lines: &[&[u8]]) -> Result<Vec<Run>, Fault> {
    let mut runs = Vec::new();
    for (place, line) in lines.iter().enumerate() {
        match run(rules, line) {
            Some(run) => runs.push(run),
            None if line.is_empty() && rules.slips(Mistake::BlankRunSkipped) => {}
            None => return Err(Fault::NoRun(numbered(rules, place))),
        }
        if rules.slips(Mistake::FallsBeforeForm) {
            if let Some(place) = falling(rules, &runs) {
                return Err(Fault::TimeFalls(numbered(rules, place)));
            }
        }
    }
    Ok(runs)
}

/// "`>` for the command line or `<` for the reply line, the time .., and one or
/// more bytes as two-digit capitals; single spaces between all of these."
fn run(rules: Rules, line: &[u8]) -> Option<Run> {
    let line = match line {
        [own @ .., b'\r'] if rules.slips(Mistake::RunReturnTaken) => own,
        _ => line,
    };
    let (on, behind) = match line {
        [b'>', b' ', behind @ ..] => (Line::Command, behind),
        [b'<', b' ', behind @ ..] => (Line::Reply, behind),
        _ => return None,
    };
    let (time, bytes) = match behind.iter().position(|byte| *byte == b' ') {
        Some(end) => (&behind[..end], hex::parse(rules, &behind[end + 1..])?),
        None if rules.slips(Mistake::EmptyRunTaken) => (behind, Vec::new()),
        None => return None,
    };
    let empty = bytes.is_empty() && !rules.slips(Mistake::EmptyRunTaken);
    (!empty).then_some(Run {
        line: on,
        time: decimal(rules, time)?,
        bytes,
    })
}

/// "In decimal, 0 to 4294967295, without a leading zero."
fn decimal(rules: Rules, digits: &[u8]) -> Option<u32> {
    let leads = matches!(digits, [b'0', _, ..]) && !rules.slips(Mistake::LeadingZeroTime);
    if digits.is_empty() || leads || !digits.iter().all(u8::is_ascii_digit) {
        return None;
    }
    let time = digits.iter().try_fold(0u64, |time, digit| {
        let time = 10 * time + u64::from(digit - b'0');
        (time < 1 << 40).then_some(time)
    })?;
    match rules.slips(Mistake::TimeCutTo32Bits) {
        true => Some(time as u32),
        false => u32::try_from(time).ok(),
    }
}

/// The first run whose time falls, from 0.
fn falling(rules: Rules, runs: &[Run]) -> Option<usize> {
    (0..runs.len()).find(|place| {
        let either = rules.slips(Mistake::FallsAcrossLines);
        let mut before = runs[..*place].iter().rev();
        let last = before.find(|run| either || run.line == runs[*place].line);
        last.is_some_and(|last| falls(rules, last.time, runs[*place].time))
    })
}

/// What the runs of one line capture, a time for each byte.
fn captured(rules: Rules, runs: &[Run], line: Line) -> Capture {
    let mut capture = Capture::default();
    for (place, run) in runs.iter().filter(|run| run.line == line).enumerate() {
        // A mistaken reader lays a gap between any two runs.
        let apart = match rules.slips(Mistake::RunsArePackets) {
            true => 2 * place as u32,
            false => 0,
        };
        let time = run.time.saturating_add(apart);
        capture.bytes.extend(&run.bytes);
        capture.times.extend(vec![time; run.bytes.len()]);
    }
    capture
}
