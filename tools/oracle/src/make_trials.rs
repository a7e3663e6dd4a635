//! Seeded inputs for the `trials` program: packets, deliveries, sheets,
//! recordings and long host stories in which most calls make sense.

mod host;
mod recordings;
mod sheets;

use crate::chain::{deliver, Delivery};
use crate::command::Held;
use crate::hex;
use crate::kind::Kind;
use crate::layout;
use crate::make_bench::malform;
use crate::make_packets::{self, damage, divisor, followed, gains, group, kinds};
use crate::make_packets::{misshape, motion, pace_packet, place};
use crate::node::{BenchValues, Captured, DriveValues, Node, Values};
use crate::packet::whole;
use crate::prng::Prng;
use crate::rules::Rules;
use crate::settings::{DriveSettings, GateSettings, Own, Settings};
use crate::status::{item_bytes, seal};
use crate::trials::{Trials, MOST_RECORDS, MOST_ROOM};

/// First bytes that try nothing.
const UNKNOWN_KINDS: [u8; 11] = [
    0x00, 0x0F, 0x13, 0x1F, 0x21, 0x2F, 0x3A, 0x44, 0x4F, 0x51, 0xFF,
];

/// An input of at most so many lines, within 64 KiB.
pub fn make(seed: u64, lines: usize) -> Vec<u8> {
    let mut story = Story::new(seed);
    let mut input = story.lines(lines, hex::MOST_INPUT);
    if story.prng.percent(30) {
        input.pop();
    }
    input
}

/// A story being told. The model is kept along, so that the teller knows
/// which calls make sense.
pub struct Story {
    prng: Prng,
    model: Trials,
    /// Whether the session should be shown next.
    show: bool,
    /// What an import gave, to be exported next.
    imported: Option<Vec<u8>>,
}

impl Story {
    pub fn new(seed: u64) -> Story {
        Story {
            prng: Prng::new(seed),
            model: Trials::new(Rules::RIGHT),
            show: false,
            imported: None,
        }
    }

    /// Lines, each ended by a newline, within a number of bytes.
    pub fn lines(&mut self, lines: usize, most_bytes: usize) -> Vec<u8> {
        let mut input = Vec::new();
        for _ in 0..lines {
            let line = self.line();
            if input.len() + line.len() + 1 > most_bytes {
                break;
            }
            self.model.answer(&line);
            input.extend(line);
            input.push(b'\n');
        }
        input
    }

    fn line(&mut self) -> Vec<u8> {
        let bytes = self.bytes();
        let line = hex::format(&bytes).into_bytes();
        if self.prng.percent(1) {
            malform(&mut self.prng, line)
        } else {
            line
        }
    }

    fn bytes(&mut self) -> Vec<u8> {
        if std::mem::take(&mut self.show) {
            return vec![0x37];
        }
        if let Some(list) = self.imported.take() {
            return self.export_of(&list);
        }
        match self.prng.below(100) {
            0..=3 => self.build_line(),
            4..=8 => self.read_line(),
            9..=12 => self.status_line(),
            13..=21 => self.delivery_line(),
            22 => vec![self.prng.pick(&UNKNOWN_KINDS), self.prng.byte()],
            23..=27 => self.sheet_line(),
            28..=29 => self.recording_line(),
            _ => self.host_line(),
        }
    }

    /// A room: mostly enough for what is needed, sometimes just so, too
    /// little, or more than may be lent.
    fn room(&mut self, needed: usize) -> u8 {
        let needed = needed.min(usize::from(MOST_ROOM)) as u8;
        match self.prng.below(100) {
            0..=49 => needed,
            50..=62 => needed.saturating_sub(1),
            63..=66 => 0,
            67..=68 => self.prng.pick(&[0x41, 0x80, 0xFF]),
            69..=72 => MOST_ROOM,
            _ => self.prng.between(needed, MOST_ROOM),
        }
    }
}

/// Packets.
impl Story {
    fn build_line(&mut self) -> Vec<u8> {
        let count = match self.prng.below(10) {
            0 => 16 + self.prng.below(4),
            _ => self.prng.below(16),
        };
        let command = match self.prng.below(10) {
            0 => self.prng.telling_byte(),
            _ => self.prng.between(0, 15),
        };
        let room = self.room(4 + count);
        let mut line = vec![0x10, room, self.prng.telling_byte(), command];
        line.extend(self.prng.telling_bytes(count));
        line
    }

    /// `11`, mostly with something behind the packet.
    fn read_line(&mut self) -> Vec<u8> {
        let count = self.prng.below(16);
        let data = self.prng.telling_bytes(count);
        let address = self.prng.telling_byte();
        let mut packet = whole(address, self.prng.between(0, 15), &data);
        packet = match self.prng.below(10) {
            0..=5 => packet,
            6..=7 => damage(&mut self.prng, packet),
            _ => misshape(&mut self.prng, packet),
        };
        if self.prng.percent(60) {
            packet = followed(&mut self.prng, packet);
        }
        [vec![0x11], packet].concat()
    }

    fn status_line(&mut self) -> Vec<u8> {
        let (kind, mask) = (self.prng.pick(&Kind::ALL), self.prng.telling_byte());
        let items = self.prng.telling_bytes(item_bytes(kind, mask));
        let mut packet = seal(self.prng.telling_byte(), &items);
        match self.prng.below(10) {
            0..=5 => {}
            6..=7 => {
                let place = self.prng.below(packet.len());
                packet[place] = self.prng.other_than(packet[place]);
            }
            8 => packet.truncate(self.prng.below(packet.len())),
            _ => packet.push(self.prng.telling_byte()),
        }
        let kind = match self.prng.below(60) {
            0 => self.prng.between(2, 0xFF),
            _ => layout::kind(kind),
        };
        [vec![0x12, kind, mask], packet].concat()
    }
}

/// Deliveries.
impl Story {
    fn delivery_line(&mut self) -> Vec<u8> {
        let nodes = self.table();
        let mut packet = match self.prng.percent(14) {
            true => pace_packet(&mut self.prng, &nodes),
            false => make_packets::packet(&mut self.prng, &nodes),
        };
        if self.prng.percent(10) {
            packet = followed(&mut self.prng, packet);
        }
        let at = match self.prng.percent(90) && !nodes.is_empty() {
            true => nodes[self.prng.below(nodes.len())].settings.divisor,
            false => divisor(&mut self.prng),
        };
        let room = self.room(reply_length(&nodes, at, &packet));
        let mut line = vec![0x20, room, at, nodes.len() as u8];
        line.extend(nodes.iter().flat_map(layout::node));
        line.extend(packet);
        line
    }

    /// A table of 0 to 33 records, mostly short and in range.
    fn table(&mut self) -> Vec<Node> {
        let length = match self.prng.below(100) {
            0..=2 => 0,
            3 => 31,
            4 => self.prng.pick(&[32, MOST_RECORDS]),
            _ => self.prng.between(1, 5),
        };
        let addressed = self.prng.between(0, length);
        // A drive's record is twice as long as a gate's, so that a long table has few.
        let mut kinds = kinds(&mut self.prng, usize::from(length.min(5)));
        kinds.resize(usize::from(length), Kind::Gate);
        let mut nodes: Vec<Node> = kinds.into_iter().map(|kind| self.node(kind)).collect();
        let common = divisor(&mut self.prng);
        let alike = self.prng.pick(&[70, 100, 100]);
        for node in &mut nodes {
            if self.prng.percent(alike) {
                node.settings.divisor = common;
            }
        }
        for (index, node) in nodes.iter_mut().enumerate() {
            node.addressed = index < usize::from(addressed);
            node.settings.place.address = if node.addressed { index as u8 + 1 } else { 0 };
        }
        if length > 0 && self.prng.percent(55) {
            self.disturb(&mut nodes);
        }
        nodes
    }

    /// Makes one record odd: unaddressed amid others, a twin, or off its range.
    fn disturb(&mut self, nodes: &mut [Node]) {
        let index = self.prng.below(nodes.len());
        let node = &mut nodes[index];
        match self.prng.below(10) {
            0 => node.addressed = !node.addressed,
            1..=2 => node.settings.place.address = self.prng.between(0, 5),
            3 => node.settings.place.address = self.prng.between(0x80, 0xFF),
            4 => node.settings.place.group = self.prng.between(0x00, 0x7F),
            _ => self.let_all_lead(nodes),
        }
    }

    /// Leaders of one group, whose replies collide.
    fn let_all_lead(&mut self, nodes: &mut [Node]) {
        let group = group(&mut self.prng);
        for node in nodes {
            node.settings.place.group = group;
            node.settings.place.leader = true;
        }
    }

    fn node(&mut self, kind: Kind) -> Node {
        Node {
            settings: self.settings(kind),
            addressed: self.prng.percent(70),
            values: self.values(kind),
        }
    }

    fn values(&mut self, kind: Kind) -> Values {
        match kind {
            Kind::Gate => Values::Gate {
                bench: BenchValues {
                    inputs: self.word(),
                    counter: self.long(),
                    analog: [self.prng.byte(), self.prng.byte(), self.prng.byte()],
                    device_id: self.prng.byte(),
                    version: self.prng.byte(),
                },
                captured: Captured {
                    inputs: self.word(),
                    counter: self.long(),
                },
            },
            Kind::Drive => Values::Drive(DriveValues {
                position: self.long() as i32,
                ad_value: self.prng.byte(),
                velocity: self.word() as i16,
                auxiliary: self.prng.byte(),
                home: self.long() as i32,
                device_id: self.prng.byte(),
                version: self.prng.byte(),
                position_error: self.word() as i16,
            }),
        }
    }

    /// Settings of a node of this kind: a lent record's drive values may be off
    /// their ranges (DECISIONS 105), and now and then they are.
    fn settings(&mut self, kind: Kind) -> Settings {
        let own = match kind {
            Kind::Gate => Own::Gate(GateSettings {
                outputs: self.word(),
                pwm: [self.prng.byte(), self.prng.byte()],
                held: Held {
                    outputs: self.word(),
                    pwm: [self.prng.byte(), self.prng.byte()],
                },
                timer_mode: self.prng.byte(),
            }),
            Kind::Drive => {
                let mut drive = DriveSettings {
                    gains: gains(&mut self.prng),
                    stop: self.prng.byte(),
                    waiting: motion(&mut self.prng),
                    in_force: motion(&mut self.prng),
                };
                if self.prng.percent(10) {
                    drive.gains.sr = 0;
                    drive.waiting.velocity = u32::MAX;
                    drive.in_force.position = i32::MIN;
                }
                Own::Drive(drive)
            }
        };
        Settings {
            place: place(&mut self.prng),
            mask: self.prng.telling_byte(),
            divisor: divisor(&mut self.prng),
            own,
        }
    }

    fn word(&mut self) -> u16 {
        u16::from_le_bytes([self.prng.byte(), self.prng.byte()])
    }

    fn long(&mut self) -> u32 {
        u32::from(self.word()) << 16 | u32::from(self.word())
    }
}

/// How long the reply will be, given all the room there is.
fn reply_length(nodes: &[Node], at: u8, packet: &[u8]) -> usize {
    let mut nodes = nodes.to_vec();
    let mut buffer = [0; MOST_ROOM as usize];
    match deliver(Rules::RIGHT, &mut nodes, at, packet, &mut buffer) {
        Ok(Delivery::Reply(length)) => length,
        _ => 2,
    }
}
