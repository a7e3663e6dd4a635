//! Hand-written cases for deliveries, `20`, to drives and to both kinds.

use crate::case::{damaged, packet, Case};
use crate::cases_trials::chain::{addressed, deliver, record, showing, waiting};
use crate::command::Place;
use crate::divisor::POWER_UP;
use crate::drive::{Gains, Motion};
use crate::node::{DriveValues, Node, Values};
use crate::settings::{DriveSettings, Own, Settings};

/// A drive whose every byte tells where it comes from.
pub fn drive(address: u8, group: u8, leader: bool) -> Node {
    Node {
        settings: Settings {
            place: Place {
                address,
                group,
                leader,
            },
            mask: 0,
            divisor: POWER_UP,
            own: Own::Drive(DriveSettings {
                gains: Gains {
                    kp: 0x1211,
                    kd: 0x1413,
                    ki: 0x1615,
                    il: 0x1817,
                    ol: 0x19,
                    el: 0x1B1A,
                    sr: 0x1C,
                    db: 0x1D,
                },
                stop: 0x04,
                waiting: Motion {
                    control: 0x31,
                    position: 0x2423_2221,
                    velocity: 0x2827_2625,
                    acceleration: 0x2C2B_2A29,
                    pwm: 0x2D,
                },
                in_force: Motion {
                    control: 0x52,
                    position: 0x4443_4241,
                    velocity: 0x4847_4645,
                    acceleration: 0x4C4B_4A49,
                    pwm: 0x4D,
                },
            }),
        },
        addressed: true,
        values: Values::Drive(DriveValues {
            position: 0x6463_6261,
            ad_value: 0x65,
            velocity: 0x6766,
            auxiliary: 0x68,
            home: 0x6C6B_6A69,
            device_id: 0x5A,
            version: 0x01,
            position_error: 0x7271,
        }),
    }
}

/// A drive at address 1 in the default group.
fn first() -> Node {
    drive(1, 0xFF, false)
}

/// A drive that waits at 0x00.
fn unaddressed() -> Node {
    Node {
        addressed: false,
        ..drive(0, 0xFF, false)
    }
}

/// Deliveries of one packet each, from its parts, to one drive.
fn to_first(parts: &[&str]) -> Vec<String> {
    let line = |parts: &&str| deliver(2, &[first()], &packet(parts));
    parts.iter().map(line).collect()
}

pub fn cases() -> Vec<Case> {
    vec![
        Case::new("drives: every command", every_command()),
        Case::new("drives: loads", to_first(&LOADS)),
        Case::new("drives: others and other counts", to_first(&OTHERS)),
        Case::new("drives: values at their ranges' ends", to_first(&IN_RANGE)),
        Case::new("drives: values off their ranges", off_range()),
        Case::new("drives: every status item", every_item()),
        Case::new("drives: Reset Position and Hard Reset", resets()),
        Case::new("drives: records off their ranges", records()),
        Case::new("drives: hearing", hearing()),
        Case::new("both kinds in a group", both_kinds()),
        Case::new("both kinds in a table of 31", table_of_31()),
    ]
}

/// The five that both kinds have, Set Address with an address and with 0x00; then
/// a drive's own, whole and damaged.
fn every_command() -> Vec<String> {
    let table = [showing(0x20, first())];
    let shared = [
        "01 21 05 10",
        "01 21 00 10",
        "01 12 41",
        "01 13 BE",
        "01 0E",
        "01 0F",
    ];
    let own = [
        "01 00",
        "01 E4 1F 01 02 03 04 05 06 07 08 09 0A 0B 0C 0D",
        "01 05",
        "01 E6 64 00 00 04 46 00 28 00 FA 00 00 08 03 05",
        "01 17 05",
        "01 57 11 01 02 03 84",
    ];
    let mut packets = [shared, own].concat();
    let damaged = own.map(damaged);
    let whole = packets.drain(..).map(packet);
    whole
        .chain(damaged)
        .map(|packet| deliver(0x12, &table, &packet))
        .collect()
}

/// Each value alone, none and several, waiting and started; of 24 what both kinds
/// read.
const LOADS: [&str; 12] = [
    "01 14 00",
    "01 14 80",
    "01 24 08 AA",
    "01 24 D8 AA",
    "01 54 11 00 28 00 00",
    "01 54 91 E0 B1 FF FF",
    "01 54 82 25 06 01 00",
    "01 54 F4 58 01 00 00",
    "01 64 8A 25 06 01 00 64",
    "01 94 36 25 06 01 00 58 01 00 00",
    "01 A4 3E 25 06 01 00 58 01 00 00 64",
    "01 E4 9F 00 00 00 00 00 00 00 00 01 00 00 00 00",
];

/// Other commands and counts; a gate's own; what 000 has and isn't ordered.
const OTHERS: [&str; 25] = [
    "01 10 00",
    "01 21 80 FF",
    "01 02",
    "01 04",
    "01 24 00 40",
    "01 24 01 40",
    "01 24 09 40",
    "01 24 8F 40",
    "01 54 00 00 28 00 00",
    "01 54 13 00 28 00 00",
    "01 94 37 25 06 01 00 58 01 00 00",
    "01 15 00",
    "01 26 05 00",
    "01 D6 64 00 00 04 00 00 00 00 FF 00 00 08 01",
    "01 07",
    "01 17 11",
    "01 57 05 01 02 03 04",
    "01 47 10 01 02 03",
    "01 18 01",
    "01 19 18",
    "01 1A 3F",
    "01 0B",
    "01 0C",
    "01 0D",
    "01 1F 00",
];

/// 0x7FFF, 0x3FFF, 01 and FF of gains; positions 7FFFFFFF and 80000001, velocity
/// and acceleration 7FFFFFFF; each stop byte with at most one of bits 1 to 4.
const IN_RANGE: [&str; 13] = [
    "01 E6 FF 7F FF 7F FF 7F FF 7F FF 00 FF 3F FF FF",
    "01 E6 00 00 00 00 00 00 00 00 00 00 00 00 01 00",
    "01 D4 07 FF FF FF 7F FF FF FF 7F FF FF FF 7F",
    "01 D4 87 01 00 00 80 00 00 00 00 00 00 00 00",
    "01 17 00",
    "01 17 02",
    "01 17 03",
    "01 17 05",
    "01 17 08",
    "01 17 09",
    "01 57 10 FF FF FF 7F",
    "01 57 11 01 00 00 80",
    "01 12 80",
];

/// One value off its range each: "replied to as a Nop is and not acted on".
const OFF_RANGE: [&str; 24] = [
    "01 E6 00 80 00 04 00 00 00 00 FF 00 00 08 01 00",
    "01 E6 64 00 00 80 00 00 00 00 FF 00 00 08 01 00",
    "01 E6 64 00 00 04 00 80 00 00 FF 00 00 08 01 00",
    "01 E6 64 00 00 04 00 00 00 80 FF 00 00 08 01 00",
    "01 E6 64 00 00 04 00 00 00 00 FF 00 00 40 01 00",
    "01 E6 64 00 00 04 00 00 00 00 FF 00 00 80 01 00",
    "01 E6 64 00 00 04 00 00 00 00 FF 00 00 08 00 00",
    "01 E6 64 00 00 04 00 00 00 00 FF 01 00 08 01 00",
    "01 54 01 00 00 00 80",
    "01 54 02 00 00 00 80",
    "01 54 04 00 00 00 80",
    "01 D4 87 01 00 00 00 00 00 00 80 01 00 00 00",
    "01 E4 8F 01 00 00 00 01 00 00 00 00 00 00 80 40",
    "01 17 06",
    "01 17 0C",
    "01 17 0F",
    "01 57 12 00 00 00 00",
    "01 57 19 00 00 00 00",
    "01 17 20",
    "01 17 25",
    "01 17 40",
    "01 17 80",
    "01 57 31 00 28 00 00",
    "01 57 10 00 00 00 80",
];

/// The reply has the items that are held, needs room for them, and says of a wrong
/// sum as ever.
fn off_range() -> Vec<String> {
    let mut lines = to_first(&OFF_RANGE);
    let table = [showing(0x03, first())];
    lines.extend([
        deliver(7, &table, &packet(OFF_RANGE[0])),
        deliver(6, &table, &packet(OFF_RANGE[0])),
        deliver(7, &table, &damaged("01 17 06")),
    ]);
    lines
}

/// Each item by itself, all of them, and bit 7, which is kept and adds none.
fn every_item() -> Vec<String> {
    let table = [first()];
    let mut lines: Vec<String> = (0..8)
        .map(|bit| deliver(6, &table, &packet(&format!("01 13 {:02X}", 1u8 << bit))))
        .collect();
    lines.extend([
        deliver(0x13, &table, &packet("01 13 FF")),
        deliver(0x12, &table, &packet("01 12 7F")),
        deliver(0x11, &table, &packet("01 12 7F")),
        deliver(0x13, &table, &packet("01 12 FF")),
        deliver(0x13, &[showing(0xFF, first())], &packet("01 0E")),
        // Of 09, 000's own example: position, then auxiliary status.
        deliver(7, &[showing(0x09, first())], &damaged("01 05")),
    ]);
    lines
}

/// "Reset Position and Hard Reset zero the position": the first in its own reply,
/// too, and neither anything else that the bench sets.
fn resets() -> Vec<String> {
    let shown = [showing(0x11, first())];
    let led = [drive(1, 0x80, true), drive(2, 0x80, false)];
    vec![
        deliver(0x0A, &shown, &packet("01 00")),
        deliver(0x0A, &shown, &damaged("01 00")),
        deliver(0x0A, &shown, &packet("01 10 00")),
        deliver(2, &led, &packet("80 00")),
        deliver(0, &led, &packet("80 0F")),
        deliver(0x0A, &shown, &packet("01 0F")),
        deliver(0x0A, &shown, &damaged("01 0F")),
    ]
}

/// 6 for address and group alone: other values of a lent record may be off their
/// ranges, and stay.
fn records() -> Vec<String> {
    let mut odd = first();
    if let Own::Drive(own) = &mut odd.settings.own {
        own.gains.kp = 0xFFFF;
        own.gains.sr = 0;
        own.stop = 0xFF;
        own.waiting.position = i32::MIN;
        own.waiting.velocity = u32::MAX;
    }
    vec![
        deliver(2, &[odd], &packet("01 0E")),
        deliver(2, &[odd], &packet("01 05")),
        deliver(2, &[drive(0x80, 0xFF, false)], &packet("01 0E")),
        deliver(2, &[first(), drive(2, 0x7F, true)], &packet("01 0E")),
    ]
}

/// A drive that is told address 0x00 stays unaddressed, so that nobody hears behind
/// it; one that is told another lets the next hear.
fn hearing() -> Vec<String> {
    vec![
        deliver(2, &[unaddressed(), waiting()], &packet("00 21 00 FF")),
        deliver(2, &[unaddressed(), waiting()], &packet("00 21 01 FF")),
        deliver(2, &[waiting(), unaddressed()], &packet("00 21 01 FF")),
        deliver(2, &[addressed(1), unaddressed()], &packet("00 21 02 00")),
        deliver(2, &[unaddressed(), unaddressed()], &packet("FF 05")),
    ]
}

/// Each reads the packet by its kind: 05 and 24 mean something to both; others to
/// one alone, and the leader replies all the same.
fn both_kinds() -> Vec<String> {
    let gate_leads = [record(1, 0x80, true, true), drive(2, 0x80, false)];
    let drive_leads = [record(1, 0x80, false, true), drive(2, 0x80, true)];
    let both_lead = [record(1, 0x80, true, true), drive(2, 0x80, true)];
    vec![
        deliver(2, &gate_leads, &packet("80 05")),
        deliver(2, &drive_leads, &packet("80 05")),
        deliver(2, &gate_leads, &packet("80 24 18 40")),
        deliver(2, &drive_leads, &packet("80 24 31 40")),
        deliver(8, &drive_leads, &packet("80 12 A1")),
        deliver(2, &drive_leads, &packet("80 0C")),
        deliver(2, &gate_leads, &packet("80 00")),
        deliver(2, &gate_leads, &packet("80 17 05")),
        deliver(2, &drive_leads, &packet("80 17 06")),
        deliver(2, &drive_leads, &packet("80 21 00 90")),
        deliver(2, &gate_leads, &packet("80 0F")),
        deliver(0, &both_lead, &packet("80 05")),
    ]
}

/// 30 gates, and a drive at the end that answers.
fn table_of_31() -> Vec<String> {
    let mut table = vec![waiting(); 30];
    table.push(drive(31, 0xFF, false));
    vec![deliver(2, &table, &packet("1F 05"))]
}
