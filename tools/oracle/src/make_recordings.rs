//! Seeded recordings: what is heard of demand 3's host over its faulty line,
//! laid out in time as the host would have it, then some of them spoilt.

use crate::command::{COMMAND_BYTES, SET_BAUD_RATE};
use crate::demand3::{self, Heard, Story};
use crate::kind::{gates, Kind};
use crate::make_packets::{damage, divisor, drive_command, group, misshape, off_range_command};
use crate::packet::{whole, OVERHEAD};
use crate::prng::Prng;
use crate::recording::{Capture, Line, Recording, GAP};
use crate::status::seal;

/// Steps of the simulation that a recording is taken from: several power-ups'
/// worth, so that there is one to choose.
const STEPS: usize = 500;

/// A recording of at most so many packets, right or spoilt.
pub fn recording(prng: &mut Prng, packets: usize) -> Recording {
    match prng.below(100) {
        0..=31 => right(prng, packets),
        32..=41 => paced(prng, packets),
        42..=64 => disturbed(prng, packets),
        65..=84 => mistimed(prng, packets),
        _ => refused(prng, packets),
    }
}

/// One that the host itself would leave.
pub fn right(prng: &mut Prng, packets: usize) -> Recording {
    let (kinds, heard) = story(prng, packets);
    laid_out(prng, &kinds, &heard)
}

/// A power-up's nodes, and the first packets heard from then on: mostly a whole
/// walk and something behind it, often a group's reply.
fn story(prng: &mut Prng, packets: usize) -> (Vec<Kind>, Vec<Heard>) {
    let stories = demand3::stories(prng.below(1 << 40) as u64, STEPS);
    let most = prng.pick(&[2, 3, 3, 31]);
    let few: Vec<&Story> = stories
        .iter()
        .filter(|story| story.host.n <= most)
        .collect();
    let tells: fn(&[Heard]) -> bool = match prng.below(10) {
        0..=4 => has_group_reply,
        5 => |heard| has_command(heard, |_, byte| byte == 0x0F),
        6..=8 => |heard| has_command(heard, |address, byte| address != 0x00 && byte != 0x0E),
        _ => |_| true,
    };
    let telling = few.iter().find(|story| tells(first(story, packets)));
    let story = telling.or(few.first()).copied().unwrap_or(&stories[0]);
    (story.kinds(), first(story, packets).to_vec())
}

fn first(story: &Story, packets: usize) -> &[Heard] {
    &story.heard[..packets.min(story.heard.len())]
}

fn has_group_reply(heard: &[Heard]) -> bool {
    heard.windows(2).any(|pair| match pair {
        [Heard::Command(bytes), Heard::Reply(_)] => bytes[1] >= 0x80,
        _ => false,
    })
}

/// Whether there is a command with such an address and command byte.
fn has_command(heard: &[Heard], test: fn(u8, u8) -> bool) -> bool {
    heard.iter().any(|packet| match packet {
        Heard::Command(bytes) => test(bytes[1], bytes[2]),
        Heard::Reply(_) => false,
    })
}

/// Proper times: no gap within a packet, one before each of its line, a reply no
/// earlier than its command and before the next.
pub fn laid_out(prng: &mut Prng, kinds: &[Kind], heard: &[Heard]) -> Recording {
    let mut recording = Recording {
        nodes: kinds.len() as u8,
        kinds: kinds.to_vec(),
        ..Recording::default()
    };
    let mut start = prng.pick(&[0, 0, 1, 1000, 0xFFF0, 0x7FFF_FFF0]);
    for packet in heard {
        let (line, bytes) = match packet {
            Heard::Command(bytes) => (Line::Command, bytes),
            Heard::Reply(bytes) => (Line::Reply, bytes),
        };
        // A command later than the packet before it, whichever line that is on;
        // a reply not before it.
        let least = start + u32::from(line == Line::Command);
        let ready = capture(&mut recording, line)
            .times
            .last()
            .map(|last| last + GAP);
        start = least.max(ready.unwrap_or(0)) + prng.pick(&[0, 0, 1, 2, 5, 40]);
        put(prng, capture(&mut recording, line), start, bytes);
    }
    recording
}

fn capture(recording: &mut Recording, line: Line) -> &mut Capture {
    match line {
        Line::Command => &mut recording.commands,
        Line::Reply => &mut recording.replies,
    }
}

/// A packet behind what is captured, from a time on.
fn put(prng: &mut Prng, capture: &mut Capture, start: u32, bytes: &[u8]) {
    let step = prng.pick(&[0, 0, 40, 100]);
    let mut time = start;
    for (place, byte) in bytes.iter().enumerate() {
        time += u32::from(place > 0 && prng.percent(step));
        capture.bytes.push(*byte);
        capture.times.push(time);
    }
}

// ---- Spoilt -------------------------------------------------------------

/// Ended by a Set Baud Rate, with something behind it.
fn paced(prng: &mut Prng, packets: usize) -> Recording {
    let (kinds, mut heard) = story(prng, packets);
    let node = prng.between(1, kinds.len() as u8);
    heard.push(Heard::Command(pace(prng, node)));
    heard.push(Heard::Command(whole(node, 0xE, &[])));
    laid_out(prng, &kinds, &heard)
}

/// Set Baud Rate, mostly to a group and with one data byte.
fn pace(prng: &mut Prng, node: u8) -> Vec<u8> {
    let to = prng.pick(&[node, 0xFF, 0xFF, 0x80, 0x90]);
    let count = prng.pick(&[1, 1, 1, 1, 1, 0, 2]);
    let data: Vec<u8> = (0..count).map(|_| divisor(prng)).collect();
    whole(to, SET_BAUD_RATE & 0x0F, &data)
}

/// Replies that nobody waits for, replies missing, commands that the host
/// couldn't have sent.
fn disturbed(prng: &mut Prng, packets: usize) -> Recording {
    let (kinds, mut heard) = story(prng, packets);
    let nodes = kinds.len() as u8;
    for _ in 0..1 + prng.below(3) {
        let place = prng.below(heard.len() + 1);
        match prng.below(10) {
            0..=3 => heard.insert(place, stray(prng)),
            4 => drop((place < heard.len()).then(|| heard.remove(place))),
            _ => heard.insert(place, foreign(prng, nodes, &heard)),
        }
    }
    laid_out(prng, &kinds, &heard)
}

/// A reply: clear, not clear, not good.
fn stray(prng: &mut Prng) -> Heard {
    let count = prng.pick(&[0, 0, 0, 1, 2, 17, 18]);
    let items = prng.telling_bytes(count);
    let mut reply = seal(prng.pick(&[0, 0, 2, 1]), &items);
    if prng.percent(25) {
        reply = prng.telling_bytes(count + 1);
    }
    Heard::Reply(reply)
}

/// A command that the host mostly couldn't have sent then and there.
fn foreign(prng: &mut Prng, nodes: u8, heard: &[Heard]) -> Heard {
    let node = prng.between(0, nodes + 1);
    let own = heard.iter().filter_map(|packet| match packet {
        Heard::Command(bytes) if bytes.len() >= OVERHEAD => Some(bytes.clone()),
        _ => None,
    });
    let own: Vec<Vec<u8>> = own.collect();
    let again = match own.is_empty() {
        true => whole(0x00, 0x1, &[1, 0xFF]),
        false => own[prng.below(own.len())].clone(),
    };
    Heard::Command(match prng.below(15) {
        14 => pace(prng, node),
        0 | 12 => damage(prng, again),
        1 => some(prng, again),
        2 => whole(0x00, 0x1, &[node, 0xFF]),
        3 => whole(node, 0x1, &[prng.between(0, nodes), group(prng)]),
        4 => whole(node, 0x1, &[node, group(prng) & 0x7F]),
        5 => whole(group(prng), 0x1, &[node, group(prng)]),
        6 => whole(node, 0xF, &[]),
        7 => {
            let count = prng.below(5);
            whole(node, prng.between(0, 15), &prng.telling_bytes(count))
        }
        8 => {
            let byte = prng.pick(&COMMAND_BYTES[1..10]);
            let data = prng.telling_bytes(usize::from(byte >> 4));
            whole(prng.pick(&[node, 0xFF, 0x80]), byte & 0x0F, &data)
        }
        9..=11 => {
            let command = match prng.percent(40) {
                true => off_range_command(prng),
                false => drive_command(prng),
            };
            let to = prng.pick(&[node, node, 0xFF, 0x90]);
            whole(to, command.nibble(), &command.data())
        }
        _ => again,
    })
}

/// A packet misshaped, but not to nothing, which no capture shows.
fn some(prng: &mut Prng, packet: Vec<u8>) -> Vec<u8> {
    let misshaped = misshape(prng, packet.clone());
    match misshaped.is_empty() {
        true => packet[..1].to_vec(),
        false => misshaped,
    }
}

/// Right but for its times: gaps within packets, none between them, a reply
/// that starts with the next command or behind it.
fn mistimed(prng: &mut Prng, packets: usize) -> Recording {
    let mut recording = right(prng, packets);
    for _ in 0..1 + prng.below(2) {
        let line = prng.pick(&[Line::Command, Line::Reply]);
        let other = match line {
            Line::Command => recording.replies.times.clone(),
            Line::Reply => recording.commands.times.clone(),
        };
        let times = &mut capture(&mut recording, line).times;
        if times.is_empty() {
            continue;
        }
        let place = prng.below(times.len());
        match prng.below(4) {
            // A gap, at its least or not even that, and all the rest later.
            0 => {
                let wait = prng.pick(&[1, 2, 2, 3]);
                times[place..].iter_mut().for_each(|time| *time += wait);
            }
            // No gap: all the rest as early as can be.
            1 => {
                let before = place.checked_sub(1).map_or(0, |before| times[before]);
                let early = times[place] - before - u32::from(times[place] > before);
                let early = early.min(prng.pick(&[1, 2, 1000]));
                times[place..].iter_mut().for_each(|time| *time -= early);
            }
            // As late as something on the other line.
            _ => {
                let later: Vec<u32> = other
                    .iter()
                    .copied()
                    .filter(|at| *at >= times[place])
                    .collect();
                if !later.is_empty() {
                    let wait = prng.pick(&later[..later.len().min(9)]) - times[place];
                    times[place..].iter_mut().for_each(|time| *time += wait);
                }
            }
        }
    }
    recording
}

/// Mostly refused: other node counts, times and bytes that differ in number,
/// times that fall.
pub fn refused(prng: &mut Prng, packets: usize) -> Recording {
    let mut recording = right(prng, packets);
    for _ in 0..prng.pick(&[1, 1, 2, 3]) {
        let line = match recording.replies.times.len() < 2 {
            true => Line::Command,
            false => prng.pick(&[Line::Command, Line::Reply]),
        };
        match prng.below(7) {
            0 => recount(&mut recording, prng.pick(&[0, 32, 0xFF])),
            1..=2 => uncount(prng, capture(&mut recording, line)),
            _ => let_fall(prng, &mut capture(&mut recording, line).times),
        }
    }
    recording
}

/// Another number of nodes, the kinds with it.
pub fn recount(recording: &mut Recording, nodes: u8) {
    recording.nodes = nodes;
    recording.kinds = gates(usize::from(nodes));
}

/// A byte or a time more, or less.
fn uncount(prng: &mut Prng, capture: &mut Capture) {
    match prng.below(4) {
        0 => drop(capture.bytes.pop()),
        1 => drop(capture.times.pop()),
        2 => capture.bytes.push(prng.byte()),
        _ => capture
            .times
            .push(capture.times.last().copied().unwrap_or(5)),
    }
}

/// A time less than the one before it, where there are two.
pub fn let_fall(prng: &mut Prng, times: &mut [u32]) {
    let places: Vec<usize> = (1..times.len()).filter(|at| times[at - 1] > 0).collect();
    if places.is_empty() {
        return;
    }
    let place = prng.pick(&places);
    let before = times[place - 1];
    times[place] = prng.pick(&[before - 1, before - 1, before / 2, 0]);
    if prng.percent(20) {
        times[place - 1] = u32::MAX;
    }
}
