//! The answers of the `trials` program: one line in, one line out.

pub mod recordings;
pub mod sheets;

use crate::chain::{deliver, Delivery};
use crate::command::Command;
use crate::hex;
use crate::layout::{self, Cursor};
use crate::node::Node;
use crate::packet;
use crate::recording;
use crate::refusal::{number_of, Refusal, COLLISION, DONE};
use crate::rules::{Mistake, Rules};
use crate::session::Session;
use crate::status;

/// What a lent buffer holds before the call.
pub const FILL: u8 = 0x55;

/// The largest room of a lent buffer.
pub const MOST_ROOM: u8 = 0x40;

/// The most node records that a line may lend.
pub const MOST_RECORDS: u8 = 0x21;

/// The answer to a line that is not of its form.
const NOT_OF_ITS_FORM: [u8; 1] = [0xFF];

/// The whole output for a whole input.
pub fn run(rules: Rules, input: &[u8]) -> String {
    if input.len() > hex::MOST_INPUT {
        return format!("{}\n", hex::format(&NOT_OF_ITS_FORM));
    }
    let mut trials = Trials::new(rules);
    hex::lines(input)
        .into_iter()
        .map(|line| trials.answer(line) + "\n")
        .collect()
}

/// The program between two lines: "one session, kept from line to line".
pub struct Trials {
    rules: Rules,
    pub session: Session,
}

impl Trials {
    pub fn new(rules: Rules) -> Trials {
        Trials {
            rules,
            session: Session::fresh(rules),
        }
    }

    /// The answer to one line, without newline.
    pub fn answer(&mut self, line: &[u8]) -> String {
        let answer = hex::parse(self.rules, line).and_then(|bytes| self.try_bytes(&bytes));
        hex::format(&answer.unwrap_or(NOT_OF_ITS_FORM.to_vec()))
    }

    /// The answer to one line of bytes; None is `FF`.
    pub fn try_bytes(&mut self, bytes: &[u8]) -> Option<Vec<u8>> {
        let mut line = Cursor(bytes);
        match line.byte()? {
            0x10 => self.build(line),
            0x11 => self.read(line),
            0x12 => self.read_status(line),
            0x20 => self.deliver(line),
            0x30 => self.power_up(line),
            0x31 => self.next(line),
            0x32 => self.ask(line),
            0x33 => self.command(line),
            0x34 => self.regroup(line),
            0x35 => Some(number_alone(self.session.report(line.rest()))),
            0x36 => self.silence(line),
            0x37 => self.show(line),
            0x38 => self.hand_in(line),
            0x39 => self.set_baud_rate(line),
            0x40 => sheets::import(self.rules, line),
            0x41 => sheets::export(self.rules, line),
            0x42 => sheets::long_import(self.rules, line),
            0x43 => sheets::long_export(self.rules, line),
            0x50 => self.walk(line),
            _ => None,
        }
    }
}

/// Packets.
impl Trials {
    fn build(&self, mut line: Cursor) -> Option<Vec<u8>> {
        let mut buffer = room(&mut line)?;
        let (address, command) = (line.byte()?, line.byte()?);
        let built = packet::build(self.rules, &mut buffer, address, command, line.rest());
        Some(with_buffer(built, &buffer))
    }

    fn read(&self, mut line: Cursor) -> Option<Vec<u8>> {
        Some(match packet::read(self.rules, line.rest()) {
            Ok(packet) => {
                let parts = [DONE, packet.end as u8, packet.address, packet.command()];
                [&parts, packet.data].concat()
            }
            Err(refusal) => vec![refusal.number()],
        })
    }

    fn read_status(&self, mut line: Cursor) -> Option<Vec<u8>> {
        let (kind, mask) = (line.kind()?, line.byte()?);
        Some(match status::read(self.rules, kind, mask, line.rest()) {
            Ok((status, items)) => [&[DONE, status], items].concat(),
            Err(refusal) => vec![refusal.number()],
        })
    }
}

/// The chain.
impl Trials {
    fn deliver(&self, mut line: Cursor) -> Option<Vec<u8>> {
        let mut buffer = room(&mut line)?;
        let at = line.byte()?;
        let count = line.byte().filter(|count| *count <= MOST_RECORDS)?;
        let mut nodes = (0..count)
            .map(|_| line.node())
            .collect::<Option<Vec<Node>>>()?;
        let result = deliver(self.rules, &mut nodes, at, line.rest(), &mut buffer);
        let (number, length) = match result {
            Ok(Delivery::Silent) => (DONE, 0),
            Ok(Delivery::Reply(length)) => (DONE, length as u8),
            Ok(Delivery::Collision) => (COLLISION, 0),
            Err(refusal) => (refusal.number(), 0),
        };
        let mut answer = vec![number, length];
        answer.extend(buffer);
        answer.extend(nodes.iter().flat_map(layout::node));
        Some(answer)
    }
}

/// The host.
impl Trials {
    fn power_up(&mut self, mut line: Cursor) -> Option<Vec<u8>> {
        let n = line.byte()?;
        let kinds = line.kinds(n)?;
        line.end()?;
        Some(number_alone(self.session.power_up(n, &kinds)))
    }

    fn next(&mut self, mut line: Cursor) -> Option<Vec<u8>> {
        let (mut buffer, at) = (room(&mut line)?, line.byte()?);
        line.end()?;
        Some(with_buffer(self.session.next(at, &mut buffer), &buffer))
    }

    fn ask(&mut self, mut line: Cursor) -> Option<Vec<u8>> {
        let (mut buffer, at) = (room(&mut line)?, line.byte()?);
        line.end()?;
        Some(with_buffer(self.session.ask(at, &mut buffer), &buffer))
    }

    /// Only the fifteen commands that a ready session takes: "33 never takes 1A".
    fn command(&mut self, mut line: Cursor) -> Option<Vec<u8>> {
        let (mut buffer, at) = (room(&mut line)?, line.byte()?);
        let target = line.target()?;
        let command = line.command().filter(|command| {
            !matches!(command, Command::SetAddress(_) | Command::SetBaudRate(_))
        })?;
        line.end()?;
        let sent = self.session.command(at, target, command, &mut buffer);
        Some(with_buffer(sent, &buffer))
    }

    fn regroup(&mut self, mut line: Cursor) -> Option<Vec<u8>> {
        let (mut buffer, at) = (room(&mut line)?, line.byte()?);
        let (node, group, leader) = (line.byte()?, line.byte()?, line.flag()?);
        line.end()?;
        let sent = self.session.regroup(at, node, group, leader, &mut buffer);
        Some(with_buffer(sent, &buffer))
    }

    fn set_baud_rate(&mut self, mut line: Cursor) -> Option<Vec<u8>> {
        let (mut buffer, at) = (room(&mut line)?, line.byte()?);
        let (group, divisor) = (line.byte()?, line.byte()?);
        line.end()?;
        let sent = self.session.set_baud_rate(at, group, divisor, &mut buffer);
        Some(with_buffer(sent, &buffer))
    }

    fn silence(&mut self, line: Cursor) -> Option<Vec<u8>> {
        line.end()?;
        Some(number_alone(self.session.silence()))
    }

    fn show(&self, line: Cursor) -> Option<Vec<u8>> {
        line.end()?;
        Some([vec![DONE], layout::session(&self.session)].concat())
    }

    fn hand_in(&mut self, mut line: Cursor) -> Option<Vec<u8>> {
        let session = line.session(self.rules)?;
        line.end()?;
        self.session = session;
        Some(vec![DONE])
    }
}

/// Recordings.
impl Trials {
    /// "The session of `30` to `38`", and to `39`, "isn't touched".
    fn walk(&mut self, line: Cursor) -> Option<Vec<u8>> {
        let recording = recordings::read(self.rules, line)?;
        let walked = recording::walk(self.rules, &recording);
        if let (Ok(walk), true) = (&walked, self.rules.slips(Mistake::RecordingKept)) {
            self.session = walk.session.clone();
        }
        Some(recordings::answer(self.rules, &walked))
    }
}

/// "A lent buffer of `room` bytes (00 to 40 hex) is filled with 55."
fn room(line: &mut Cursor) -> Option<Vec<u8>> {
    let room = line.byte().filter(|room| *room <= MOST_ROOM)?;
    Some(vec![FILL; usize::from(room)])
}

fn number_alone<T>(result: Result<T, Refusal>) -> Vec<u8> {
    vec![number_of(&result)]
}

fn with_buffer<T>(result: Result<T, Refusal>, buffer: &[u8]) -> Vec<u8> {
    [&[number_of(&result)], buffer].concat()
}
