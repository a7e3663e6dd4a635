//! How often each number is answered and each command is tried, how often a
//! packet is read with bytes behind it, and the same of recordings.

use crate::bench::Bench;
use crate::command::{Command, SET_BAUD_RATE};
use crate::hex;
use crate::kind::Kind;
use crate::layout::{self, Cursor};
use crate::node::Node;
use crate::recording::{self, Did};
use crate::refusal::{Refusal, COLLISION, DONE};
use crate::rules::Rules;
use crate::trials::{recordings, Trials};

/// The answer to a line that the trials program can't read.
const UNREADABLE: u8 = 0xFF;

/// All that can be answered, in order.
pub fn answerable() -> Vec<u8> {
    let refusals = Refusal::ALL.iter().map(|refusal| refusal.number());
    let mut numbers: Vec<u8> = refusals.chain([DONE, COLLISION, UNREADABLE]).collect();
    numbers.sort_unstable();
    numbers
}

/// Counts by number and by command byte, of packets that are followed, and of
/// recordings.
pub struct Coverage {
    pub lines: usize,
    /// Each number as itself; the last is the answer FF.
    pub numbers: [usize; 256],
    pub commands: [usize; 256],
    /// Of an LS-173AP: its own five, and what is delivered where there is one.
    pub drive_commands: [usize; 256],
    /// Packets that are read with bytes behind them.
    pub followed: usize,
    /// Lines `50`, by their numbers.
    pub walked: [usize; 256],
    /// Recordings that a command ends which the host couldn't have sent.
    pub foreign: usize,
    /// Commands that the host of a recording sends; a drive's own apart.
    pub sent: [usize; 256],
    pub sent_to_drives: [usize; 256],
}

/// A command byte that is tried.
struct Tried {
    byte: u8,
    to_drives: bool,
}

impl Tried {
    fn of(command: Command) -> Option<Tried> {
        Some(Tried {
            byte: command.byte(),
            to_drives: command.owner() == Some(Kind::Drive),
        })
    }

    fn plain(byte: Option<&u8>) -> Option<Tried> {
        let to_drives = false;
        byte.map(|byte| Tried {
            byte: *byte,
            to_drives,
        })
    }
}

impl Coverage {
    fn none() -> Coverage {
        Coverage {
            lines: 0,
            numbers: [0; 256],
            commands: [0; 256],
            drive_commands: [0; 256],
            followed: 0,
            walked: [0; 256],
            foreign: 0,
            sent: [0; 256],
            sent_to_drives: [0; 256],
        }
    }

    fn number(&mut self, number: u8) {
        self.numbers[usize::from(number)] += 1;
    }

    fn command(&mut self, tried: Option<Tried>) {
        if let Some(tried) = tried {
            let counts = match tried.to_drives {
                true => &mut self.drive_commands,
                false => &mut self.commands,
            };
            counts[usize::from(tried.byte)] += 1;
        }
    }

    /// Of a bench input.
    pub fn of_bench(input: &[u8]) -> Coverage {
        let mut coverage = Coverage::none();
        let Some((mut bench, packets)) = Bench::start(Rules::RIGHT, input) else {
            coverage.number(6);
            return coverage;
        };
        for line in packets {
            coverage.lines += 1;
            let bytes = hex::parse(Rules::RIGHT, line).unwrap_or_default();
            coverage.command(Tried::plain(bytes.get(2)));
            let answer = bench.answer(line).unwrap_or_default();
            coverage.number(bench_number(&answer));
        }
        coverage
    }

    /// Of a trials input.
    pub fn of_trials(input: &[u8]) -> Coverage {
        let mut coverage = Coverage::none();
        let mut trials = Trials::new(Rules::RIGHT);
        for line in hex::lines(input) {
            coverage.lines += 1;
            let bytes = hex::parse(Rules::RIGHT, line).unwrap_or_default();
            coverage.command(tried_command(&bytes));
            let answer = trials.answer(line);
            let answer = hex::parse(Rules::RIGHT, answer.as_bytes()).unwrap_or_default();
            coverage.number(answer[0]);
            coverage.followed += usize::from(is_followed(&bytes, &answer));
            if let [0x50, captured @ ..] = &bytes[..] {
                coverage.walked[usize::from(answer[0])] += 1;
                coverage.recording(captured);
            }
        }
        coverage
    }

    /// What a line `50` hands back.
    fn recording(&mut self, line: &[u8]) {
        let Some(recording) = recordings::read(Rules::RIGHT, Cursor(line)) else {
            return;
        };
        let Ok(walk) = recording::walk(Rules::RIGHT, &recording) else {
            return;
        };
        self.foreign += usize::from(walk.foreign);
        for step in &walk.steps {
            let sent = match step.did {
                Did::Sent(command) => command,
                Did::Closed => Command::HardReset,
                _ => continue,
            };
            let counts = match sent.owner() {
                Some(Kind::Drive) => &mut self.sent_to_drives,
                _ => &mut self.sent,
            };
            counts[usize::from(sent.byte())] += 1;
            self.command(Tried::of(sent));
        }
    }

    /// The counts, a line each.
    pub fn text(&self) -> String {
        let (lines, followed) = (self.lines, self.followed);
        let mut text = format!("{lines} lines\nread with bytes behind: {followed}\n");
        for number in answerable() {
            let count = self.numbers[usize::from(number)];
            let name = match number {
                UNREADABLE => "FF".to_string(),
                _ => number.to_string(),
            };
            text += &format!("number {name}: {count}\n");
        }
        text += &listed("command byte", &self.commands);
        text += &listed("drive's command byte", &self.drive_commands);
        let walked = self.walked[usize::from(DONE)];
        text += &format!(
            "recordings walked: {walked}, {} of them ended by a command\n",
            self.foreign
        );
        text += &listed("recorded command byte", &self.sent);
        text += &listed("recorded drive's command byte", &self.sent_to_drives);
        text
    }
}

/// The bytes that are met, a line each.
fn listed(name: &str, counts: &[usize; 256]) -> String {
    let met = counts.iter().enumerate().filter(|(_, count)| **count > 0);
    met.map(|(byte, count)| format!("{name} {byte:02X}: {count}\n"))
        .collect()
}

/// The number that a line of the bench program stands for.
fn bench_number(answer: &str) -> u8 {
    match answer.strip_prefix("refused ") {
        Some(number) => number.parse().unwrap_or(UNREADABLE),
        None if answer == "collision" => COLLISION,
        None => DONE,
    }
}

/// Whether a line reads a packet that ends before the line does.
fn is_followed(line: &[u8], answer: &[u8]) -> bool {
    match (line, answer) {
        ([0x11, bytes @ ..], [DONE, end, ..]) => usize::from(*end) < bytes.len(),
        _ => false,
    }
}

/// The command byte that a line tries.
fn tried_command(line: &[u8]) -> Option<Tried> {
    match line.first()? {
        0x10 => Tried::plain(line.get(3)),
        0x11 => Tried::plain(line.get(3)),
        0x20 => delivered(line),
        0x31 | 0x34 => Tried::plain(Some(&0x21)),
        0x32 => Tried::plain(Some(&0x0E)),
        0x33 => Some(Tried {
            byte: *line.get(6)?,
            to_drives: line[5] == layout::kind(Kind::Drive),
        }),
        0x39 => Tried::plain(Some(&SET_BAUD_RATE)),
        _ => None,
    }
}

/// What a line `20` delivers.
fn delivered(line: &[u8]) -> Option<Tried> {
    let mut records = Cursor(line.get(4..)?);
    let nodes = (0..line[3]).map(|_| records.node());
    let nodes: Vec<Node> = nodes.collect::<Option<_>>()?;
    Some(Tried {
        byte: *records.rest().get(2)?,
        to_drives: nodes.iter().any(|node| node.kind() == Kind::Drive),
    })
}
