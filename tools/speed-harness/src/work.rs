//! What both sides are given: seeded packets for a chain, the same as the text
//! of a rehearsal, and movement sheets with their packets.

use oracle::drive::{Motion, Stop};
use oracle::packet::whole;
use oracle::prng::Prng;
use oracle::{hex, make_packets};

use crate::plain::{Bench, Kind, Node};

/// The room of a rehearsal text.
const TEXT: usize = 64 * 1024;

/// Packets end to end, and where each ends.
pub struct Packets {
    bytes: Vec<u8>,
    ends: Vec<usize>,
}

impl Packets {
    /// A chain addressed and grouped by its first packets, then the mix of a
    /// show: mostly orders and questions to one node, a fourth to groups.
    pub fn make(kinds: &[Kind], count: usize, seed: u64) -> Packets {
        let mut packets = Packets {
            bytes: Vec::new(),
            ends: Vec::new(),
        };
        let nodes = kinds.len() as u8;
        for node in 1..=nodes {
            packets.add(&whole(0x00, 0x1, &[node, 0xFF]));
        }
        for node in 1..=nodes {
            packets.add(&regroup(node, node % 4, node <= 4));
        }
        let mut prng = Prng::new(seed);
        while packets.count() < count {
            packets.add_mixed(&mut prng, kinds);
        }
        packets
    }

    fn add(&mut self, packet: &[u8]) {
        self.bytes.extend_from_slice(packet);
        self.ends.push(self.bytes.len());
    }

    /// What is for a kind alone goes to a node of that kind, or to a group
    /// that may have both.
    fn add_mixed(&mut self, prng: &mut Prng, kinds: &[Kind]) {
        let index = prng.below(kinds.len());
        let node = 1 + index as u8;
        let group = 0x80 + prng.below(4) as u8;
        let data = [prng.byte(), prng.byte(), prng.byte(), prng.byte()];
        let packet = match (kinds[index], prng.below(1000)) {
            (Kind::Gate, 0..=119) => whole(node, 0x6, &data[..2]),
            (Kind::Gate, 120..=219) => whole(node, 0x4, &data[..2]),
            (Kind::Gate, 220..=319) => whole(node, 0x7, &data),
            (Kind::Gate, 320..=359) => whole(node, 0x8, &data[..1]),
            (Kind::Gate, 785..=844) => whole(group, 0xC, &[]),
            (Kind::Gate, 845..=894) => whole(group, 0x6, &data[..2]),
            (Kind::Drive, 0..=119) => whole(node, 0x4, &load(prng, data[0])),
            (Kind::Drive, 120..=219) => whole(node, 0x4, &load(prng, data[0] & 0xF0 | 0x08)),
            (Kind::Drive, 220..=319) => whole(node, 0x6, &make_packets::gains(prng).data()),
            (Kind::Drive, 320..=359) => whole(node, 0x7, &stop(prng)),
            (Kind::Drive, 785..=844) => whole(group, 0x0, &[]),
            (Kind::Drive, 845..=894) => whole(group, 0x4, &load(prng, data[0])),
            (_, 360..=379) => whole(node, 0x2, &data[..1]),
            (_, 380..=449) => whole(node, 0xE, &[]),
            (_, 450..=694) => whole(node, 0x3, &data[..1]),
            (_, 695..=784) => whole(group, 0x5, &[]),
            (_, 895..=924) => whole(group, 0xE, &[]),
            (_, 925..=944) => regroup(node, data[0] % 4, data[1] < 64),
            (_, 945..=959) => spoilt(whole(node, 0x6, &data[..2])),
            (_, 960..=974) => whole(node, 0x9, &data[..usize::from(data[3] % 4)]),
            (_, 975..=984) => whole(0x40 + data[0] % 64, 0x6, &data[..2]),
            (_, 985..=989) => cut(whole(node, 0x6, &data[..2])),
            // A node reset, and addressed again.
            _ => {
                self.add(&whole(node, 0xF, &[]));
                whole(0x00, 0x1, &[node, 0x80 + node % 4])
            }
        };
        self.add(&packet);
    }

    pub fn count(&self) -> usize {
        self.ends.len()
    }

    pub fn iter(&self) -> impl Iterator<Item = &[u8]> {
        let mut start = 0;
        self.ends.iter().map(move |end| {
            let packet = &self.bytes[start..*end];
            start = *end;
            packet
        })
    }
}

/// Set Address to a node, which keeps its number.
fn regroup(node: u8, group: u8, leads: bool) -> Vec<u8> {
    whole(node, 0x1, &[node, if leads { group } else { group | 0x80 }])
}

/// A load of what its control byte brings.
fn load(prng: &mut Prng, control: u8) -> Vec<u8> {
    let motion = make_packets::motion(prng);
    Motion { control, ..motion }.data()
}

/// A stop, here or elsewhere.
fn stop(prng: &mut Prng) -> Vec<u8> {
    let byte = prng.pick(&[0x01, 0x03, 0x05, 0x09, 0x11]);
    let position = make_packets::motion(prng).position;
    Stop { byte, position }.data()
}

fn spoilt(mut packet: Vec<u8>) -> Vec<u8> {
    if let Some(sum) = packet.last_mut() {
        *sum = sum.wrapping_add(1);
    }
    packet
}

fn cut(mut packet: Vec<u8>) -> Vec<u8> {
    packet.pop();
    packet
}

/// As many packets as a rehearsal text has room for, as that text; how many.
pub fn text(nodes: usize, seed: u64) -> (Vec<u8>, usize) {
    let mut text = format!("{nodes}\n").into_bytes();
    let mut count = 0;
    for packet in Packets::make(&gates(nodes), TEXT / 12, seed).iter() {
        let line = hex::format(packet);
        if text.len() + line.len() + 1 > TEXT {
            break;
        }
        text.extend_from_slice(line.as_bytes());
        text.push(b'\n');
        count += 1;
    }
    (text, count)
}

/// The kinds of a chain of gates alone.
pub fn gates(nodes: usize) -> Vec<Kind> {
    vec![Kind::Gate; nodes]
}

/// Four gates, four drives, and so on: half of them drives, and every group has
/// both.
pub fn half_drives(nodes: usize) -> Vec<Kind> {
    let kinds = (0..nodes).map(|index| match index / 4 % 2 {
        0 => Kind::Gate,
        _ => Kind::Drive,
    });
    kinds.collect()
}

/// A chain in power-up state whose bench values tell its nodes apart.
pub fn chain(kinds: &[Kind]) -> Vec<Node> {
    let nodes = (0..).zip(kinds).map(|(index, kind)| {
        let bench = Bench {
            counter: 70_000 + 65_537 * u32::from(index),
            home: 90_000 + 65_539 * u32::from(index),
            inputs: 1000 + 7 * u16::from(index),
            velocity: 2000 + 11 * u16::from(index),
            error: 3000 + 13 * u16::from(index),
            analog: [index, index + 1, index + 2],
            ad: index + 3,
            auxiliary: index + 4,
            id: 33,
            version: 5,
        };
        Node {
            position: 80_000 + 65_543 * u32::from(index),
            ..Node::power_up(*kind, bench)
        }
    });
    nodes.collect()
}

/// A sheet of at most so many KiB: commands without data or with 1, 2, 4 or 15
/// bytes of it, one digit here and two there, letters of either case.
pub fn sheet(size: usize, seed: u64) -> Vec<u8> {
    let mut prng = Prng::new(seed);
    let mut text = Vec::new();
    loop {
        let line = line(&mut prng);
        if text.len() + line.len() > size * 1024 {
            return text;
        }
        text.extend_from_slice(&line);
    }
}

/// Packets whose sheet has at most so many KiB, and how many bytes it has.
pub fn packets(size: usize, seed: u64) -> (Vec<u8>, usize) {
    let mut prng = Prng::new(seed);
    let (mut packets, mut length) = (Vec::new(), 0);
    loop {
        let packet = command(&mut prng);
        // `HEX`, a space and two digits for each byte but header and sum, a newline.
        let line = 3 + 3 * (packet.len() - 2) + 1;
        if length + line > size * 1024 {
            return (packets, length);
        }
        packets.extend_from_slice(&packet);
        length += line;
    }
}

/// A packet of a sheet: to a node mostly, else to a group.
fn command(prng: &mut Prng) -> Vec<u8> {
    let count = prng.pick(&[0, 1, 2, 4, 15]);
    let data: Vec<u8> = (0..count).map(|_| prng.byte()).collect();
    let address = if prng.percent(75) {
        prng.between(1, 31)
    } else {
        prng.between(0x80, 0x83)
    };
    whole(address, prng.between(0, 15), &data)
}

/// The line of such a packet.
fn line(prng: &mut Prng) -> Vec<u8> {
    let packet = command(prng);
    let mut line = String::from("HEX");
    for byte in &packet[1..packet.len() - 1] {
        line += &match (prng.percent(50), prng.percent(50)) {
            (true, true) => format!(" {byte:X}"),
            (true, false) => format!(" {byte:x}"),
            (false, true) => format!(" {byte:02X}"),
            (false, false) => format!(" {byte:02x}"),
        };
    }
    line.push('\n');
    line.into_bytes()
}
