//! Seeded packets that tell right nodes from wrong ones.

use crate::command::{Command, Held, Place, COMMAND_BYTES, SET_BAUD_RATE};
use crate::divisor::{listed, POWER_UP};
use crate::drive::{Gains, Motion, Stop, Value, NO_POSITION};
use crate::kind::Kind;
use crate::node::Node;
use crate::packet::{whole, HEADER, MOST_DATA};
use crate::prng::Prng;
use crate::rules::Rules;

/// The groups that stories keep to, so that members meet.
const GROUPS: [u8; 4] = [0x80, 0x81, 0x90, 0xFF];

/// A packet for a chain: mostly right and to somebody, else spoilt.
pub fn packet(prng: &mut Prng, nodes: &[Node]) -> Vec<u8> {
    let packet = match prng.below(100) {
        0..=24 => walk_packet(prng, nodes),
        25..=33 => regroup_packet(prng, nodes),
        34..=79 => command_packet(prng, nodes),
        80..=84 => whole(address(prng, nodes), 0xF, &[]),
        _ => other_packet(prng, nodes),
    };
    match prng.below(100) {
        0..=11 => damage(prng, packet),
        12..=19 => misshape(prng, packet),
        20..=23 => {
            let packet = match prng.percent(40) {
                true => damage(prng, packet),
                false => packet,
            };
            followed(prng, packet)
        }
        _ => packet,
    }
}

/// An address byte that somebody has, most of the time.
fn address(prng: &mut Prng, nodes: &[Node]) -> u8 {
    if nodes.is_empty() {
        return prng.byte();
    }
    let node = &nodes[prng.below(nodes.len())];
    match prng.below(100) {
        0..=54 => node.address(),
        55..=84 => node.group(),
        85..=92 => 0x00,
        _ => prng.byte(),
    }
}

/// The second byte of a Set Address: a group to join or to lead.
fn second_byte(prng: &mut Prng) -> u8 {
    let group = prng.pick(&GROUPS);
    match prng.below(100) {
        0..=69 => group,
        70..=94 => group & 0x7F,
        _ => prng.byte(),
    }
}

/// Set Address to 0x00, mostly with the next free number.
fn walk_packet(prng: &mut Prng, nodes: &[Node]) -> Vec<u8> {
    let next = 1 + nodes.iter().filter(|node| node.addressed).count() as u8;
    let number = if prng.percent(90) { next } else { prng.byte() };
    let second = if prng.percent(50) {
        0xFF
    } else {
        second_byte(prng)
    };
    whole(0x00, 0x1, &[number, second])
}

/// Set Address to somebody, keeping or changing the number.
fn regroup_packet(prng: &mut Prng, nodes: &[Node]) -> Vec<u8> {
    let to = address(prng, nodes);
    let number = match prng.below(100) {
        0..=79 if to < 0x80 => to,
        80..=92 => prng.between(0x00, 0x7F),
        _ => prng.byte(),
    };
    whole(to, 0x1, &[number, second_byte(prng)])
}

/// One of the ten other commands of an LS-773, Hard Reset left out; with drives
/// among the nodes, often one of theirs.
fn command_packet(prng: &mut Prng, nodes: &[Node]) -> Vec<u8> {
    let drives = nodes.iter().filter(|node| node.kind() == Kind::Drive);
    let share = 90 * drives.count() / nodes.len().max(1);
    if share > 0 && prng.percent(share) {
        return drive_packet(prng, nodes);
    }
    let byte = prng.pick(&COMMAND_BYTES[1..10]);
    let data = prng.telling_bytes(usize::from(byte >> 4));
    whole(address(prng, nodes), byte & 0x0F, &data)
}

/// Any command with any count.
fn other_packet(prng: &mut Prng, nodes: &[Node]) -> Vec<u8> {
    let count = prng.pick(&[0, 0, 1, 1, 2, 3, 4, 5, MOST_DATA]);
    let mut data = prng.telling_bytes(count);
    let (to, command) = (address(prng, nodes), prng.between(0, 15));
    if command == SET_BAUD_RATE & 0x0F && to >= 0x80 && count == 1 {
        data[0] = POWER_UP; // no word of a speed at which nobody is spoken to again
    }
    whole(to, command, &data)
}

/// Set Baud Rate: mostly to somebody's group, else by an individual address, or with
/// another count.
pub fn pace_packet(prng: &mut Prng, nodes: &[Node]) -> Vec<u8> {
    let groups: Vec<u8> = nodes.iter().map(Node::group).collect();
    let to = match prng.percent(65) && !groups.is_empty() {
        true => prng.pick(&groups),
        false => address(prng, nodes),
    };
    let count = prng.pick(&[1, 1, 1, 1, 1, 0, 2]);
    let data: Vec<u8> = (0..count).map(|_| divisor(prng)).collect();
    whole(to, SET_BAUD_RATE & 0x0F, &data)
}

/// A divisor: one of the few that stories keep to, one that a gate's manual lists, or
/// any byte.
pub fn divisor(prng: &mut Prng) -> u8 {
    match prng.below(10) {
        0 => prng.byte(),
        1..=2 => prng.pick(listed(Kind::Gate)),
        _ => prng.pick(&[POWER_UP, POWER_UP, 0x0A, 0x14]),
    }
}

/// One byte changed, but for header and command byte: form right, sum wrong.
pub fn damage(prng: &mut Prng, mut packet: Vec<u8>) -> Vec<u8> {
    let places: Vec<usize> = (1..packet.len()).filter(|place| *place != 2).collect();
    let place = prng.pick(&places);
    packet[place] = prng.other_than(packet[place]);
    packet
}

/// Cut, without header, empty, or with something behind it.
pub fn misshape(prng: &mut Prng, mut packet: Vec<u8>) -> Vec<u8> {
    match prng.below(5) {
        0 => packet.truncate(prng.below(packet.len())),
        1 => packet[0] = prng.other_than(packet[0]),
        2 => drop(packet.remove(0)),
        3 => packet.clear(),
        _ => return followed(prng, packet),
    }
    packet
}

/// Something behind a packet: another one, whole, damaged or cut; headers
/// alone; any bytes.
pub fn followed(prng: &mut Prng, packet: Vec<u8>) -> Vec<u8> {
    let next = other_packet(prng, &[]);
    let behind = match prng.below(10) {
        0..=3 => next,
        4 => damage(prng, next),
        5..=6 => next[..1 + prng.below(next.len() - 1)].to_vec(),
        7 => vec![HEADER; 1 + prng.below(4)],
        _ => {
            let most = prng.pick(&[6, 6, 6, 40]);
            let count = 1 + prng.below(most);
            prng.telling_bytes(count)
        }
    };
    [packet, behind].concat()
}

/// One of the eleven commands of an LS-773 with telling data.
pub fn any_command(prng: &mut Prng, byte: u8) -> Command {
    match byte {
        0x21 => Command::SetAddress(place(prng)),
        0x47 => Command::SetSynchOutput(Held {
            outputs: u16::from_le_bytes([prng.telling_byte(), prng.telling_byte()]),
            pwm: [prng.telling_byte(), prng.telling_byte()],
        }),
        _ => {
            let data = prng.telling_bytes(usize::from(byte >> 4));
            Command::decode(Kind::Gate, byte, &data).expect("a command's own count of data")
        }
    }
}

/// Any place within the ranges.
pub fn place(prng: &mut Prng) -> Place {
    Place {
        address: prng.between(0x00, 0x7F),
        group: group(prng),
        leader: prng.percent(40),
    }
}

/// A group, mostly one of the few that stories keep to.
pub fn group(prng: &mut Prng) -> u8 {
    if prng.percent(90) {
        prng.pick(&GROUPS)
    } else {
        prng.between(0x80, 0xFF)
    }
}

// ---- Drives -------------------------------------------------------------

/// One of a drive's own commands: mostly acted on, else a value is off its range,
/// or a count or a byte isn't as it must be; or a mask with bit 7 set.
fn drive_packet(prng: &mut Prng, nodes: &[Node]) -> Vec<u8> {
    let to = drive_address(prng, nodes);
    match prng.below(100) {
        0..=5 => return whole(to, 0x7, &uncounted_stop(prng)),
        6..=11 => {
            let mut data = gains(prng).data();
            data[9] = prng.between(1, 0xFF);
            return whole(to, 0x6, &data);
        }
        12..=16 => return whole(to, 0x2, &[prng.telling_byte() | 0x80]), // no reserved bit
        _ => {}
    }
    let command = match prng.percent(25) {
        true => off_range_command(prng),
        false => drive_command(prng),
    };
    let mut data = command.data();
    if prng.percent(30) {
        misshape_data(prng, &mut data);
    }
    whole(to, command.nibble(), &data)
}

/// An address byte that a drive has, most of the time.
fn drive_address(prng: &mut Prng, nodes: &[Node]) -> u8 {
    let drives = nodes.iter().filter(|node| node.kind() == Kind::Drive);
    let drives: Vec<Node> = drives.copied().collect();
    match prng.percent(85) {
        true => address(prng, &drives),
        false => address(prng, nodes),
    }
}

/// A stop byte that has bit 4 and no position, or a position without it.
fn uncounted_stop(prng: &mut Prng) -> Vec<u8> {
    let byte = prng.between(0, 1);
    match prng.percent(50) {
        true => vec![0x10 | byte],
        false => [vec![0x04 | byte], prng.telling_bytes(4)].concat(),
    }
}

/// A data byte more or less, the first another, or one bit of it.
fn misshape_data(prng: &mut Prng, data: &mut Vec<u8>) {
    match prng.below(5) {
        _ if data.is_empty() => data.push(prng.telling_byte()),
        0 => drop(data.pop()),
        1 => data.push(prng.telling_byte()),
        2..=3 => data[0] ^= 0x10,
        _ => data[0] = prng.byte(),
    }
}

/// One of a drive's own five, its values of their ranges.
pub fn drive_command(prng: &mut Prng) -> Command {
    match prng.below(20) {
        0..=1 => Command::ResetPosition,
        2..=9 => Command::LoadTrajectory(load(prng)),
        10..=13 => Command::StartMotion,
        14..=16 => Command::SetGain(gains(prng)),
        _ => Command::StopMotor(stop(prng)),
    }
}

/// A load of some values, of the PWM value alone now and then, started or not.
fn load(prng: &mut Prng) -> Motion {
    let control = match prng.below(4) {
        0 => prng.pick(&[0x08, 0x18, 0x88, 0x98]),
        1 => prng.byte() & 0xF0 | 1 << prng.below(4),
        _ => prng.byte(),
    };
    let all = motion(prng);
    let mut load = Motion {
        control,
        ..Motion::ZERO
    };
    for value in Value::ALL {
        if load.brings(value) {
            load.take(value, Motion { control, ..all });
        }
    }
    load
}

/// Five values of their ranges.
pub fn motion(prng: &mut Prng) -> Motion {
    Motion {
        control: prng.byte(),
        position: position(prng),
        velocity: prng.telling_long() & 0x7FFF_FFFF,
        acceleration: prng.telling_long() & 0x7FFF_FFFF,
        pwm: prng.telling_byte(),
    }
}

fn position(prng: &mut Prng) -> i32 {
    let position = prng.telling_long() as i32;
    position.max(NO_POSITION + 1)
}

/// Gains of their ranges, often at the ends of these.
pub fn gains(prng: &mut Prng) -> Gains {
    let mut word = |most: u16| match prng.below(4) {
        0 => most,
        _ => u16::from_le_bytes([prng.telling_byte(), prng.telling_byte()]) & most,
    };
    Gains {
        kp: word(0x7FFF),
        kd: word(0x7FFF),
        ki: word(0x7FFF),
        il: word(0x7FFF),
        el: word(0x3FFF),
        ol: prng.telling_byte(),
        sr: prng.telling_byte().max(1),
        db: prng.telling_byte(),
    }
}

/// A stop byte with at most one of bits 1 to 4.
fn stop(prng: &mut Prng) -> Stop {
    let byte = prng.pick(&[0x00, 0x02, 0x04, 0x08, 0x10, 0x10]) | prng.between(0, 1);
    let position = position(prng);
    let here = byte & 0x10 != 0;
    Stop {
        byte,
        position: if here { position } else { 0 },
    }
}

/// One of the three whose values have ranges, with one value off its own.
pub fn off_range_command(prng: &mut Prng) -> Command {
    let most = [0x8000_0000, 0x8000_0000, 0xFFFF_FFFF];
    let command = match prng.below(9) {
        0..=2 => {
            let mut load = load(prng);
            load.control |= prng.pick(&[0x01, 0x02, 0x04]);
            match load.control & 0x07 {
                0x01 | 0x03 | 0x05 | 0x07 => load.position = NO_POSITION,
                0x02 | 0x06 => load.velocity = prng.pick(&most),
                _ => load.acceleration = prng.pick(&most),
            }
            Command::LoadTrajectory(load)
        }
        3..=5 => Command::SetGain(off_range_gains(prng)),
        6..=7 => {
            let several = prng.pick(&[0x06, 0x0A, 0x0C, 0x0E, 0x12, 0x18, 0x1E]);
            let reserved = prng.pick(&[0x20, 0x40, 0x80, 0xE5, 0x31]);
            let byte = prng.pick(&[several, several | 1, reserved, reserved | 4]);
            let position = if byte & 0x10 != 0 { position(prng) } else { 0 };
            Command::StopMotor(Stop { byte, position })
        }
        _ => Command::StopMotor(Stop {
            byte: 0x10 | prng.between(0, 1),
            position: NO_POSITION,
        }),
    };
    debug_assert!(!command.is_in_range(Rules::RIGHT));
    command
}

fn off_range_gains(prng: &mut Prng) -> Gains {
    let mut gains = gains(prng);
    let high = prng.pick(&[0x8000, 0x8000, 0xFFFF]);
    match prng.below(6) {
        0 => gains.kp = high,
        1 => gains.kd = high,
        2 => gains.ki = high,
        3 => gains.il = high,
        4 => gains.el = prng.pick(&[0x4000, 0x4000, 0x7FFF, 0x8000]),
        _ => gains.sr = 0,
    }
    gains
}

/// The kinds of a chain: gates alone, drives alone, or both.
pub fn kinds(prng: &mut Prng, count: usize) -> Vec<Kind> {
    let drives = prng.pick(&[0, 0, 40, 60, 100]);
    let kinds = (0..count).map(|_| match prng.percent(drives) {
        true => Kind::Drive,
        false => Kind::Gate,
    });
    kinds.collect()
}
