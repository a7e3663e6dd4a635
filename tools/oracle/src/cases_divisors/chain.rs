//! Hand-written cases for deliveries, `20`, at divisors.

use crate::case::{damaged, packet, Case};
use crate::cases_carousels::chain::drive;
use crate::cases_trials::chain::{addressed, deliver_at, record, showing, waiting};
use crate::node::Node;

/// A record that holds this divisor.
fn paced(divisor: u8, node: Node) -> Node {
    let mut node = node;
    node.settings.divisor = divisor;
    node
}

pub fn cases() -> Vec<Case> {
    vec![
        Case::new("divisors: a node hears at its own", own_divisor()),
        Case::new("divisors: who hears in a chain", hearing()),
        Case::new("divisors: refusals at any divisor", refusals()),
        Case::new("divisors: Set Baud Rate to a group", to_group()),
        Case::new("divisors: Set Baud Rate not acted on", not_acted_on()),
        Case::new("divisors: Set Baud Rate and leaders", leaders()),
        Case::new("divisors: Set Baud Rate at drives", drives()),
        Case::new("divisors: Hard Reset", resets()),
    ]
}

/// At 3F, at another, at one that no manual lists: heard at the own, all of it, and
/// nothing at any other.
fn own_divisor() -> Vec<String> {
    let set_outputs = packet("01 26 07 00");
    let mut lines = Vec::new();
    for own in [0x3F, 0x0A, 0x00] {
        let table = [paced(own, addressed(1))];
        for at in [0x3F, 0x0A, 0x00] {
            lines.push(deliver_at(at, 2, &table, &set_outputs));
        }
    }
    let table = [paced(0x0A, showing(0x20, addressed(1)))];
    lines.extend([
        deliver_at(0x0A, 4, &table, &damaged("01 26 07 00")),
        deliver_at(0x3F, 4, &table, &damaged("01 26 07 00")),
        deliver_at(0x3F, 4, &table, &packet("01 0F")),
    ]);
    lines
}

/// A node behind one of another divisor hears at its own, and so does one that has no
/// address behind an addressed one; who replies is of those that hear alone.
fn hearing() -> Vec<String> {
    let both = [addressed(1), paced(0x0A, addressed(2))];
    let slow_behind = [paced(0x0A, addressed(1)), addressed(2)];
    let leaders = [
        record(1, 0x80, true, true),
        paced(0x0A, record(2, 0x80, true, true)),
    ];
    let twins = [paced(0x0A, addressed(1)), addressed(1)];
    let to_all = packet("FF 26 07 00");
    let set_address = packet("00 21 02 FF");
    vec![
        deliver_at(0x3F, 2, &both, &to_all),
        deliver_at(0x0A, 2, &both, &to_all),
        deliver_at(0x14, 2, &both, &to_all),
        deliver_at(0x3F, 2, &slow_behind, &packet("02 0E")),
        deliver_at(
            0x3F,
            2,
            &[paced(0x0A, addressed(1)), waiting()],
            &set_address,
        ),
        deliver_at(
            0x0A,
            2,
            &[addressed(1), paced(0x0A, waiting())],
            &set_address,
        ),
        deliver_at(
            0x3F,
            2,
            &[addressed(1), paced(0x0A, waiting())],
            &set_address,
        ),
        deliver_at(0x3F, 2, &leaders, &packet("80 26 07 00")),
        deliver_at(0x0A, 2, &leaders, &packet("80 26 07 00")),
        deliver_at(0x0A, 2, &twins, &packet("01 18 01")),
    ]
}

/// 6, 1, 2 and 3 where nobody hears the divisor, too; 5 only where somebody replies.
fn refusals() -> Vec<String> {
    let table = [addressed(1)];
    let bad = [paced(0x0A, record(1, 0x7F, false, true))];
    let nop = packet("01 0E");
    vec![
        deliver_at(0x0A, 0, &[], &nop),
        deliver_at(0x3F, 2, &bad, &nop),
        deliver_at(0x0A, 0, &table, ""),
        deliver_at(0x0A, 0, &table, "01 0E 0F"),
        deliver_at(0x0A, 0, &table, &format!("{nop} 00")),
        deliver_at(0x0A, 0, &table, &nop),
        deliver_at(0x3F, 0, &table, &nop),
    ]
}

/// "Keeps any divisor sent", listed or not, its own again or another; heard at its own
/// alone; nobody replies. Behind a node that doesn't hear there is one that does.
fn to_group() -> Vec<String> {
    let table = [addressed(1)];
    let mut lines: Vec<String> = [0x0A, 0x3F, 0x81, 0x03, 0x00, 0x55, 0xFF]
        .into_iter()
        .map(|divisor| deliver_at(0x3F, 0, &table, &packet(&format!("FF 1A {divisor:02X}"))))
        .collect();
    let both = [
        paced(0x0A, addressed(1)),
        addressed(2),
        waiting(),
        waiting(),
    ];
    lines.extend([
        deliver_at(0x3F, 2, &both, &packet("FF 1A 14")),
        deliver_at(0x0A, 2, &both, &packet("FF 1A 14")),
        deliver_at(0x14, 2, &both, &packet("FF 1A 0A")),
        deliver_at(0x3F, 2, &table, &packet("80 1A 0A")),
        deliver_at(0x3F, 2, &table, &damaged("FF 1A 0A")),
        deliver_at(
            0x3F,
            0,
            &[record(1, 0x81, false, true)],
            &packet("81 1A 0A"),
        ),
    ]);
    lines
}

/// By an individual address it is "replied to as a Nop is", under the mask held; so is
/// another count, to a group or not.
fn not_acted_on() -> Vec<String> {
    let table = [showing(0x20, addressed(1))];
    let leader = [showing(0x20, record(1, 0x80, true, true))];
    let mut lines: Vec<String> = [
        packet("01 1A 0A"),
        packet("01 1A 3F"),
        damaged("01 1A 0A"),
        packet("01 0A"),
        packet("01 2A 0A 0A"),
        packet("FF 0A"),
        packet("FF 2A 0A 0A"),
        packet("FF 2A 0A 14"),
    ]
    .iter()
    .map(|packet| deliver_at(0x3F, 4, &table, packet))
    .collect();
    lines.extend([
        deliver_at(0x3F, 4, &leader, &packet("80 0A")),
        deliver_at(0x3F, 4, &leader, &packet("80 2A 0A 14")),
        deliver_at(0x3F, 3, &leader, &packet("01 1A 0A")),
        deliver_at(0x3F, 2, &[waiting()], &packet("00 1A 0A")),
    ]);
    lines
}

/// A leader replies as ever, with its items, and needs room for them; so its reply may
/// collide; a member keeps the divisor too.
fn leaders() -> Vec<String> {
    let led = [
        record(1, 0x80, false, true),
        showing(0x20, record(2, 0x80, true, true)),
    ];
    let both_lead = [record(1, 0x80, true, true), record(2, 0x80, true, true)];
    vec![
        deliver_at(0x3F, 5, &led, &packet("80 1A 0A")),
        deliver_at(0x3F, 4, &led, &packet("80 1A 55")),
        deliver_at(0x3F, 3, &led, &packet("80 1A 0A")),
        deliver_at(0x3F, 4, &led, &damaged("80 1A 0A")),
        deliver_at(0x0A, 4, &led, &packet("80 1A 0A")),
        deliver_at(0x3F, 0, &both_lead, &packet("80 1A 0A")),
        deliver_at(0x3F, 0, &both_lead, &damaged("80 1A 0A")),
    ]
}

/// A drive keeps any divisor, too, also one that only the gates' manual lists.
fn drives() -> Vec<String> {
    let both = [record(1, 0x80, false, true), drive(2, 0x80, true)];
    let one = [drive(1, 0xFF, false)];
    let fast = [paced(0x0A, drive(1, 0xFF, false))];
    vec![
        deliver_at(0x3F, 2, &both, &packet("80 1A 03")),
        deliver_at(0x3F, 2, &both, &packet("02 1A 0A")),
        deliver_at(0x3F, 2, &both, &packet("80 2A 0A 0A")),
        deliver_at(0x3F, 2, &one, &packet("FF 1A 0A")),
        deliver_at(0x3F, 2, &one, &packet("FF 1A 55")),
        deliver_at(0x3F, 2, &one, &packet("01 1A 0A")),
        deliver_at(0x0A, 2, &fast, &packet("01 05")),
        deliver_at(0x3F, 2, &fast, &packet("01 05")),
    ]
}

/// Heard at the node's own divisor, it makes it 3F; damaged, or at another, it doesn't.
fn resets() -> Vec<String> {
    let table = [paced(0x0A, addressed(1))];
    let group = [
        paced(0x0A, record(1, 0x80, true, true)),
        paced(0x14, record(2, 0x80, false, true)),
    ];
    let drive = [paced(0x0A, drive(1, 0xFF, false))];
    vec![
        deliver_at(0x0A, 2, &table, &packet("01 0F")),
        deliver_at(0x0A, 2, &table, &damaged("01 0F")),
        deliver_at(0x0A, 2, &table, &packet("01 1F 00")),
        deliver_at(0x0A, 0, &group, &packet("80 0F")),
        deliver_at(0x14, 0, &group, &packet("80 0F")),
        deliver_at(0x0A, 0, &drive, &packet("FF 0F")),
    ]
}
