//! The byte layouts of the `trials` program: wide numbers, NODE, ENTRY,
//! EXCHANGE, STATE, CAPTURE.
//! Every wide value goes least significant byte first.

use crate::command::{Command, Held, Place};
use crate::drive::{Gains, Motion, Value};
use crate::kind::Kind;
use crate::node::{BenchValues, Captured, DriveValues, Node, Values};
use crate::record::{all_known, Entry};
use crate::recording::{Capture, Recording};
use crate::rules::Rules;
use crate::session::{Exchange, Session};
use crate::settings::{DriveSettings, GateSettings, Own, Settings};
use crate::target::Target;

/// The bytes of one NODE, behind its KIND and its divisor.
#[cfg(test)]
pub fn node_bytes(kind: Kind) -> usize {
    match kind {
        Kind::Gate => 31,
        Kind::Drive => 63,
    }
}

/// Bytes still to be taken from a line. Every taking gives None where the
/// line is not of its form.
pub struct Cursor<'a>(pub &'a [u8]);

impl<'a> Cursor<'a> {
    pub fn byte(&mut self) -> Option<u8> {
        let (first, rest) = self.0.split_first()?;
        self.0 = rest;
        Some(*first)
    }

    fn bytes<const N: usize>(&mut self) -> Option<[u8; N]> {
        let (first, rest) = self.0.split_first_chunk()?;
        self.0 = rest;
        Some(*first)
    }

    /// "A flag other than 00 or 01" is not of the form.
    pub fn flag(&mut self) -> Option<bool> {
        match self.byte()? {
            0 => Some(false),
            1 => Some(true),
            _ => None,
        }
    }

    fn word(&mut self) -> Option<u16> {
        self.bytes().map(u16::from_le_bytes)
    }

    fn signed_word(&mut self) -> Option<i16> {
        self.bytes().map(i16::from_le_bytes)
    }

    fn signed_long(&mut self) -> Option<i32> {
        self.bytes().map(i32::from_le_bytes)
    }

    /// A number of four bytes.
    pub fn long(&mut self) -> Option<u32> {
        self.bytes().map(u32::from_le_bytes)
    }

    /// A number of N bytes.
    pub fn wide<const N: usize>(&mut self) -> Option<usize> {
        let bytes: [u8; N] = self.bytes()?;
        let join = |value, byte: &u8| value << 8 | usize::from(*byte);
        Some(bytes.iter().rev().fold(0, join))
    }

    /// So many bytes.
    pub fn take(&mut self, count: usize) -> Option<&'a [u8]> {
        let taken = self.0.get(..count)?;
        self.0 = &self.0[count..];
        Some(taken)
    }

    /// All that is left.
    pub fn rest(&mut self) -> &'a [u8] {
        std::mem::take(&mut self.0)
    }

    /// Nothing may be left.
    pub fn end(&self) -> Option<()> {
        self.0.is_empty().then_some(())
    }

    fn place(&mut self) -> Option<Place> {
        Some(Place {
            address: self.byte()?,
            group: self.byte()?,
            leader: self.flag()?,
        })
    }

    fn held(&mut self) -> Option<Held> {
        Some(Held {
            outputs: self.word()?,
            pwm: self.bytes()?,
        })
    }

    fn gains(&mut self) -> Option<Gains> {
        Some(Gains {
            kp: self.word()?,
            kd: self.word()?,
            ki: self.word()?,
            il: self.word()?,
            ol: self.byte()?,
            el: self.word()?,
            sr: self.byte()?,
            db: self.byte()?,
        })
    }

    fn motion(&mut self) -> Option<Motion> {
        Some(Motion {
            control: self.byte()?,
            position: self.signed_long()?,
            velocity: self.long()?,
            acceleration: self.long()?,
            pwm: self.byte()?,
        })
    }

    /// KIND: 00 an LS-773, 01 an LS-173AP, and no other byte.
    pub fn kind(&mut self) -> Option<Kind> {
        let drive = self.flag()?;
        Some(if drive { Kind::Drive } else { Kind::Gate })
    }

    /// `KIND*n`.
    pub fn kinds(&mut self, n: u8) -> Option<Vec<Kind>> {
        (0..n).map(|_| self.kind()).collect()
    }

    /// The settings behind the place, in the order of both NODE and ENTRY, in which
    /// the divisor stands before it.
    fn settings_at(&mut self, kind: Kind, divisor: u8, place: Place) -> Option<Settings> {
        let mask = self.byte()?;
        let own = match kind {
            Kind::Gate => Own::Gate(GateSettings {
                outputs: self.word()?,
                pwm: self.bytes()?,
                held: self.held()?,
                timer_mode: self.byte()?,
            }),
            Kind::Drive => Own::Drive(DriveSettings {
                gains: self.gains()?,
                stop: self.byte()?,
                waiting: self.motion()?,
                in_force: self.motion()?,
            }),
        };
        Some(Settings {
            place,
            mask,
            divisor,
            own,
        })
    }

    fn values(&mut self, kind: Kind) -> Option<Values> {
        Some(match kind {
            Kind::Gate => Values::Gate {
                bench: BenchValues {
                    inputs: self.word()?,
                    counter: self.long()?,
                    analog: self.bytes()?,
                    device_id: self.byte()?,
                    version: self.byte()?,
                },
                captured: Captured {
                    inputs: self.word()?,
                    counter: self.long()?,
                },
            },
            Kind::Drive => Values::Drive(DriveValues {
                position: self.signed_long()?,
                ad_value: self.byte()?,
                velocity: self.signed_word()?,
                auxiliary: self.byte()?,
                home: self.signed_long()?,
                device_id: self.byte()?,
                version: self.byte()?,
                position_error: self.signed_word()?,
            }),
        })
    }

    /// NODE, its KIND and its divisor first.
    pub fn node(&mut self) -> Option<Node> {
        let kind = self.kind()?;
        let divisor = self.byte()?;
        let place = self.place()?;
        let addressed = self.flag()?;
        Some(Node {
            settings: self.settings_at(kind, divisor, place)?,
            addressed,
            values: self.values(kind)?,
        })
    }

    /// ENTRY, its KIND and its divisor first: "known has bit 6 for the divisor of kind
    /// 00 (bit 7 is 0), bit 14 of kind 01 (bit 15 is 0)".
    fn entry(&mut self) -> Option<Entry> {
        let kind = self.kind()?;
        let divisor = self.byte()?;
        let place = self.place()?;
        let settings = self.settings_at(kind, divisor, place)?;
        let known = match kind {
            Kind::Gate => u16::from(self.byte()?),
            Kind::Drive => self.word()?,
        };
        (known <= all_known(kind)).then_some(Entry { settings, known })
    }

    pub fn target(&mut self) -> Option<Target> {
        let to_group = self.flag()?;
        let number = self.byte()?;
        Some(if to_group {
            Target::Group(number)
        } else {
            Target::Node(number)
        })
    }

    /// FAMILY, a command byte and as many data bytes as it counts: "FAMILY 00, the
    /// command as the LS-773 has it ..; FAMILY 01, as the LS-173AP has it, only its
    /// own five".
    pub fn command(&mut self) -> Option<Command> {
        let family = self.kind()?;
        let byte = self.byte()?;
        let data = self.take(usize::from(byte >> 4))?;
        let own = |command: &Command| family == Kind::Gate || command.owner() == Some(family);
        Command::decode(family, byte, data).filter(own)
    }

    /// EXCHANGE, "with the divisor that it was sent at; 1A may wait too, FAMILY 00, kind
    /// 01 (a group) only, else `FF`".
    fn exchange(&mut self) -> Option<Exchange> {
        if !self.flag()? {
            return Some(Exchange::Idle);
        }
        let (at, target, command) = (self.byte()?, self.target()?, self.command()?);
        let paces = matches!(command, Command::SetBaudRate(_));
        (target.is_group() || !paces).then_some(Exchange::Waiting {
            at,
            target,
            command,
        })
    }

    pub fn session(&mut self, rules: Rules) -> Option<Session> {
        let mut session = Session::fresh(rules);
        session.open = self.flag()?;
        session.n = self.byte()?;
        session.walk = self.byte()?;
        session.exchange = self.exchange()?;
        for entry in &mut session.entries {
            *entry = self.entry()?;
        }
        Some(session)
    }
}

/// A number in N bytes.
pub fn wide<const N: usize>(number: usize) -> [u8; N] {
    std::array::from_fn(|place| (number >> (8 * place)) as u8)
}

/// KIND.
pub fn kind(kind: Kind) -> u8 {
    match kind {
        Kind::Gate => 0,
        Kind::Drive => 1,
    }
}

/// `KIND*n`.
pub fn kinds(kinds: &[Kind]) -> Vec<u8> {
    kinds.iter().map(|own| kind(*own)).collect()
}

/// GAINS: "Set Gain's data without its tenth byte".
fn gains(gains: Gains) -> Vec<u8> {
    let mut data = gains.data();
    data.remove(9);
    data
}

/// MOTION.
fn motion(motion: Motion) -> Vec<u8> {
    let values = Value::ALL.into_iter();
    values.flat_map(|value| motion.bytes(value)).collect()
}

/// The settings behind the place.
fn settings_behind_place(settings: &Settings) -> Vec<u8> {
    let mut bytes = vec![settings.mask];
    match settings.own {
        Own::Gate(gate) => {
            bytes.extend(gate.outputs.to_le_bytes());
            bytes.extend(gate.pwm);
            bytes.extend(gate.held.outputs.to_le_bytes());
            bytes.extend(gate.held.pwm);
            bytes.push(gate.timer_mode);
        }
        Own::Drive(drive) => {
            bytes.extend(gains(drive.gains));
            bytes.push(drive.stop);
            bytes.extend(motion(drive.waiting));
            bytes.extend(motion(drive.in_force));
        }
    }
    bytes
}

/// What a node shows that is no setting.
fn values(values: &Values) -> Vec<u8> {
    let mut bytes = Vec::new();
    match values {
        Values::Gate { bench, captured } => {
            bytes.extend(bench.inputs.to_le_bytes());
            bytes.extend(bench.counter.to_le_bytes());
            bytes.extend(bench.analog);
            bytes.extend([bench.device_id, bench.version]);
            bytes.extend(captured.inputs.to_le_bytes());
            bytes.extend(captured.counter.to_le_bytes());
        }
        Values::Drive(drive) => {
            bytes.extend(drive.position.to_le_bytes());
            bytes.push(drive.ad_value);
            bytes.extend(drive.velocity.to_le_bytes());
            bytes.push(drive.auxiliary);
            bytes.extend(drive.home.to_le_bytes());
            bytes.extend([drive.device_id, drive.version]);
            bytes.extend(drive.position_error.to_le_bytes());
        }
    }
    bytes
}

/// NODE, its KIND and its divisor first.
pub fn node(node: &Node) -> Vec<u8> {
    let place = node.settings.place;
    let mut bytes = vec![
        kind(node.kind()),
        node.settings.divisor,
        place.address,
        place.group,
        u8::from(place.leader),
        u8::from(node.addressed),
    ];
    bytes.extend(settings_behind_place(&node.settings));
    bytes.extend(values(&node.values));
    bytes
}

/// ENTRY, its KIND and its divisor first.
fn entry(entry: &Entry) -> Vec<u8> {
    let place = entry.settings.place;
    let mut bytes = vec![
        kind(entry.kind()),
        entry.settings.divisor,
        place.address,
        place.group,
        u8::from(place.leader),
    ];
    bytes.extend(settings_behind_place(&entry.settings));
    match entry.kind() {
        Kind::Gate => bytes.push(entry.known as u8),
        Kind::Drive => bytes.extend(entry.known.to_le_bytes()),
    }
    bytes
}

pub fn target(target: Target) -> [u8; 2] {
    [u8::from(target.is_group()), target.address()]
}

/// FAMILY, command byte and data.
pub fn command(command: Command) -> Vec<u8> {
    let family = command.owner().unwrap_or(Kind::Gate);
    let mut bytes = vec![kind(family), command.byte()];
    bytes.extend(command.data());
    bytes
}

fn exchange(exchange: &Exchange) -> Vec<u8> {
    match exchange {
        Exchange::Idle => vec![0],
        Exchange::Waiting {
            at,
            target: to,
            command: waiting,
        } => {
            let mut bytes = vec![1, *at];
            bytes.extend(target(*to));
            bytes.extend(command(*waiting));
            bytes
        }
    }
}

/// STATE.
pub fn session(session: &Session) -> Vec<u8> {
    let mut bytes = vec![u8::from(session.open), session.n, session.walk];
    bytes.extend(exchange(&session.exchange));
    for one in &session.entries {
        bytes.extend(entry(one));
    }
    bytes
}

/// CAPTURE, `b(2) byte*b t(2) time(4)*t`.
fn capture(capture: &Capture) -> Vec<u8> {
    let mut bytes = wide::<2>(capture.bytes.len()).to_vec();
    bytes.extend(&capture.bytes);
    bytes.extend(wide::<2>(capture.times.len()));
    bytes.extend(capture.times.iter().flat_map(|time| time.to_le_bytes()));
    bytes
}

/// `n KIND*n CAPTURE CAPTURE`, the command line first.
pub fn recording(recording: &Recording) -> Vec<u8> {
    let mut bytes = vec![recording.nodes];
    bytes.extend(kinds(&recording.kinds));
    bytes.extend(capture(&recording.commands));
    bytes.extend(capture(&recording.replies));
    bytes
}
