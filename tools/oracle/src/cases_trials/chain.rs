//! Hand-written cases for deliveries, `20`.

use crate::case::{damaged, of_count, packet, Case};
use crate::command::{Held, Place};
use crate::divisor::POWER_UP;
use crate::hex;
use crate::layout;
use crate::node::{BenchValues, Captured, Node, Values};
use crate::settings::{GateSettings, Own, Settings};

/// A record whose every byte tells where it comes from.
pub fn record(address: u8, group: u8, leader: bool, addressed: bool) -> Node {
    Node {
        settings: Settings {
            place: Place {
                address,
                group,
                leader,
            },
            mask: 0,
            divisor: POWER_UP,
            own: Own::Gate(GateSettings {
                outputs: 0x9291,
                pwm: [0x31, 0x32],
                held: Held {
                    outputs: 0xC2C1,
                    pwm: [0x43, 0x44],
                },
                timer_mode: 0xCD,
            }),
        },
        addressed,
        values: Values::Gate {
            bench: BenchValues {
                inputs: 0x6261,
                counter: 0x7473_7271,
                analog: [0x81, 0x82, 0x83],
                device_id: 0x02,
                version: 0x32,
            },
            captured: Captured {
                inputs: 0xB2B1,
                counter: 0xD4D3_D2D1,
            },
        },
    }
}

/// A record that shows these items in its replies.
pub fn showing(mask: u8, node: Node) -> Node {
    let mut node = node;
    node.settings.mask = mask;
    node
}

/// An addressed node in the default group.
pub fn addressed(address: u8) -> Node {
    record(address, 0xFF, false, true)
}

/// A node that waits at 0x00.
pub fn waiting() -> Node {
    record(0x00, 0xFF, false, false)
}

/// A delivery's line, at 0x3F.
pub fn deliver(room: u8, nodes: &[Node], packet: &str) -> String {
    deliver_at(POWER_UP, room, nodes, packet)
}

/// A delivery's line, at a divisor.
pub fn deliver_at(at: u8, room: u8, nodes: &[Node], packet: &str) -> String {
    let mut bytes = vec![0x20, room, at, nodes.len() as u8];
    bytes.extend(nodes.iter().flat_map(layout::node));
    format!("{} {packet}", hex::format(&bytes))
        .trim_end()
        .to_string()
}

pub fn cases() -> Vec<Case> {
    vec![
        Case::new("tables of every length", table_lengths()),
        Case::new("records off their range", records_off_range()),
        Case::new("the chain's order of checks", chain_order()),
        Case::new("left-over bytes", left_over()),
        Case::new("every kind at a node", every_kind()),
        Case::new("others and other counts at a node", others()),
        Case::new("every status item", every_item()),
        Case::new("room for the actual reply", rooms()),
        Case::new("who hears", hearing()),
        Case::new("leaders and members", leaders()),
        Case::new("collisions", collisions()),
        Case::new("Hard Reset at a node", resets()),
    ]
}

/// One of 31 is among the drives' cases.
fn table_lengths() -> Vec<String> {
    let nop = packet("00 0E");
    [0, 1, 32]
        .into_iter()
        .map(|length| deliver(4, &vec![waiting(); length], &nop))
        .chain(["", "01", "AA 01 0E 0F 00"].map(|packet| deliver(0, &[], packet)))
        .collect()
}

/// 6 also for records that do not hear and for packets not meant for them, and
/// before 1 and 3.
fn records_off_range() -> Vec<String> {
    let bad_address = record(0x80, 0xFF, false, false);
    let bad_group = record(0x02, 0x7F, true, false);
    let (nop, to_waiting) = (packet("01 0E"), packet("00 0E"));
    vec![
        deliver(4, &[bad_address], &nop),
        deliver(4, &[addressed(1), bad_group], &nop),
        deliver(4, &[waiting(), bad_address], &to_waiting),
        deliver(4, &[waiting(), bad_group], &to_waiting),
        deliver(0, &[bad_group], ""),
        deliver(4, &[bad_group], &format!("{nop} 00")),
        deliver(4, &[addressed(1), record(0x7F, 0x80, true, true)], &nop),
        deliver(
            4,
            &[addressed(1), record(0x05, 0x05, true, true)],
            &packet("05 0E"),
        ),
    ]
}

/// 1, 2 and 3 before 5.
fn chain_order() -> Vec<String> {
    let table = [addressed(1)];
    [
        "",
        "00",
        "AA",
        "AA 01 0E",
        "AA 01 12 01",
        "AA 01 F3 AA 01 0E 0F",
        "01 0E 0F",
        "0F 01 0E 0F 00",
        "AA 01 0E 0F 00",
        "AA 01 0E 10 00",
    ]
    .into_iter()
    .map(|packet| deliver(0, &table, packet))
    .collect()
}

/// 3 whatever is left over, behind a right sum and a wrong one, where nobody
/// replies and where nobody is meant.
fn left_over() -> Vec<String> {
    let table = [addressed(1)];
    [
        (packet("01 26 07 00"), "00"),
        (damaged("01 26 07 00"), "00"),
        (packet("01 26 07 00"), "AA"),
        (packet("01 26 07 00"), "AA 01 0E 0F"),
        (damaged("01 26 07 00"), "AA 01 0E 0F"),
        (packet("01 0F"), "AA 01 0E 0F"),
        (packet("05 0E"), "00"),
        (hex::format(&of_count(15)), "00"),
    ]
    .into_iter()
    .map(|(packet, more)| deliver(2, &table, &format!("{packet} {more}")))
    .collect()
}

/// The eleven kinds, whole and damaged.
fn every_kind() -> Vec<String> {
    let table = [showing(0x20, addressed(1))];
    [
        "01 21 05 90",
        "01 21 05 10",
        "01 12 41",
        "01 13 BE",
        "01 24 AA 56",
        "01 05",
        "01 26 FF EE",
        "01 47 F7 01 80 AA",
        "01 18 EE",
        "01 0C",
        "01 0E",
        "01 0F",
    ]
    .into_iter()
    .flat_map(|parts| [packet(parts), damaged(parts)].map(|packet| deliver(0x13, &table, &packet)))
    .collect()
}

fn others() -> Vec<String> {
    let table = [showing(0x02, addressed(1))];
    [
        "01 00",
        "01 09",
        "01 1A 3F",
        "01 0B",
        "01 0D",
        "01 11 07",
        "01 31 07 FF 00",
        "01 02",
        "01 22 FF FF",
        "01 23 FF FF",
        "01 14 00",
        "01 15 00",
        "01 16 05",
        "01 37 00 00 00",
        "01 28 00 00",
        "01 1C 00",
        "01 1F 00",
        "01 21 80 FF",
        "01 21 FF 01",
    ]
    .into_iter()
    .map(|parts| deliver(6, &table, &packet(parts)))
    .collect()
}

fn every_item() -> Vec<String> {
    let table = [addressed(1)];
    let mut lines: Vec<String> = (0..8)
        .map(|bit| deliver(6, &table, &packet(&format!("01 13 {:02X}", 1u8 << bit))))
        .collect();
    lines.extend([
        deliver(0x14, &table, &packet("01 13 FF")),
        deliver(0x14, &table, &packet("01 12 FF")),
        deliver(0x14, &table, &packet("01 12 09")),
        deliver(0x14, &[showing(0xFF, addressed(1))], &packet("01 0C")),
        // The longest reply, bit 1 set, in a buffer that it fills.
        deliver(0x13, &[showing(0xFF, addressed(1))], &damaged("01 0C")),
        deliver(0x14, &[showing(0xC0, addressed(1))], &packet("01 12 00")),
        deliver(0x14, &[showing(0xC0, addressed(1))], &packet("01 13 01")),
        deliver(0x14, &[showing(0xC0, addressed(1))], &damaged("01 13 01")),
    ]);
    lines
}

/// 5 is tested for the actual reply and before any node acts.
fn rooms() -> Vec<String> {
    let table = [addressed(1)];
    let led = [record(1, 0x80, true, true), record(2, 0x80, false, true)];
    let twins = [addressed(1), addressed(1)];
    vec![
        deliver(1, &table, &packet("01 26 07 00")),
        deliver(2, &table, &packet("01 26 07 00")),
        deliver(0x12, &table, &packet("01 12 FF")),
        deliver(0x13, &table, &packet("01 12 FF")),
        deliver(2, &[showing(0xFF, addressed(1))], &packet("01 12 00")),
        deliver(2, &[showing(0xFF, addressed(1))], &packet("01 13 00")),
        deliver(2, &[showing(0xFF, addressed(1))], &damaged("01 12 00")),
        deliver(1, &table, &damaged("01 0F")),
        deliver(0, &table, &packet("01 0F")),
        deliver(0, &table, &packet("FF 26 07 00")),
        deliver(0, &table, &packet("03 26 07 00")),
        deliver(0, &twins, &packet("01 26 07 00")),
        deliver(1, &led, &packet("80 26 07 00")),
        deliver(2, &led, &packet("80 26 07 00")),
    ]
}

fn hearing() -> Vec<String> {
    let set_address = packet("00 21 01 FF");
    let nop = packet("00 0E");
    let reset_amid = [addressed(1), waiting(), waiting(), addressed(4)];
    vec![
        deliver(2, &[waiting(), waiting()], &set_address),
        deliver(
            2,
            &[addressed(1), waiting(), waiting()],
            &packet("00 21 02 00"),
        ),
        deliver(2, &[waiting(), addressed(2)], &packet("02 0E")),
        deliver(2, &[waiting(), addressed(2)], &nop),
        deliver(2, &reset_amid, &nop),
        deliver(2, &reset_amid, &packet("FF 26 07 00")),
        deliver(2, &[addressed(0), waiting(), waiting()], &nop),
    ]
}

fn leaders() -> Vec<String> {
    let member = record(1, 0x81, false, true);
    let leader = record(2, 0x81, true, true);
    let other = record(3, 0x82, true, true);
    let group = [member, leader];
    let mut lines = vec![
        deliver(6, &[member, leader, other], &packet("81 24 01 02")),
        deliver(6, &[leader, other], &packet("82 0E")),
        deliver(6, &[member, leader, other], &packet("81 0F")),
    ];
    for packet in [
        damaged("81 24 01 02"),
        packet("81 12 20"),
        packet("01 21 01 01"),
        packet("81 21 07 03"),
        damaged("81 0F"),
        packet("81 1F 00"),
        packet("FF 0E"),
    ] {
        lines.push(deliver(6, &group, &packet));
    }
    // A leader that doesn't hear, behind a member that does.
    let deaf = [
        leader,
        record(0, 0x81, false, false),
        record(0, 0x81, true, false),
    ];
    lines.push(deliver(6, &deaf, &packet("81 24 01 02")));
    lines
}

/// Both leaders act, and so does a member; no room is asked for.
fn collisions() -> Vec<String> {
    let leaders = [
        record(1, 0x80, true, true),
        record(2, 0x80, true, true),
        record(3, 0x80, false, true),
    ];
    vec![
        deliver(0, &leaders, &packet("80 26 07 00")),
        deliver(0x13, &leaders[..2], &damaged("80 26 07 00")),
        deliver(0x13, &leaders[..2], &packet("80 12 FF")),
        deliver(0, &leaders, &packet("80 0F")),
        deliver(0, &leaders[..2], &packet("80 21 05 80")),
    ]
}

fn resets() -> Vec<String> {
    let leader = showing(0x3F, record(1, 0x80, true, true));
    let table = [leader, record(2, 0x80, false, true), addressed(3)];
    vec![
        deliver(0x13, &table[..2], &packet("01 0F")),
        deliver(0x13, &table, &packet("80 0F")),
        deliver(0x13, &table[..2], &damaged("01 0F")),
        deliver(0x13, &table[..2], &packet("01 1F 00")),
    ]
}
