//! The output of the program `edges`: calls that no line of `trials` can make,
//! since its forms have no such arguments. One line a call: what was tried and
//! its two arguments; then the number, how many bytes the answer speaks of, and
//! the lent buffer, which held 55 before.

use crate::command::{Command, Place};
use crate::divisor::POWER_UP;
use crate::drive::{Motion, Stop};
use crate::hex;
use crate::refusal::{number_of, Refusal};
use crate::rules::Rules;
use crate::session::{self, Session};
use crate::target::Target;
use crate::trials::FILL;

/// A Nop has room in the lent buffer, and so have a load of no value and a Set Baud
/// Rate; a Set Address has not.
const ROOM: usize = 5;

/// A line whose last byte lacks a digit.
const LINE: &[u8] = b"01 02 03 04 05 06 07 0";

/// Calls of one kind: what is tried, with which arguments.
struct Kind {
    what: &'static str,
    call: fn(Rules, u8, u8, &mut [u8]) -> Result<usize, Refusal>,
    arguments: &'static [(u8, u8)],
}

/// The kinds in the order of the output.
const KINDS: [Kind; 10] = [
    Kind {
        what: "order Set Address, walk and node",
        call: order,
        arguments: &[(2, 1), (2, 3), (0, 1), (3, 1)],
    },
    Kind {
        what: "order Set Baud Rate, walk and address",
        call: order_pace,
        arguments: &[(2, 1), (2, 3), (2, 0xFF), (0, 0xFF), (3, 0xFF)],
    },
    Kind {
        what: "order Set Baud Rate, divisor and data",
        call: order_pace_at,
        arguments: &[(0x00, 0x0A), (0x3F, 0x00)],
    },
    Kind {
        what: "build Nop, kind and address",
        call: build_nop,
        arguments: &[
            (0, 0x7F),
            (0, 0x80),
            (0, 0xFF),
            (1, 0x80),
            (1, 0x7F),
            (1, 0x00),
        ],
    },
    Kind {
        what: "build Set Address, address and group",
        call: build_place,
        arguments: &[(0x7F, 0x80), (0x80, 0x80), (0x7F, 0x7F)],
    },
    Kind {
        what: "build Set Baud Rate, kind and address",
        call: build_pace,
        arguments: &[(0, 0x01), (1, 0xFF), (1, 0x7F)],
    },
    Kind {
        what: "build Load Trajectory, control byte and velocity",
        call: build_load,
        arguments: &[(0x00, 0), (0x00, 1), (0x0D, 1), (0x02, 1)],
    },
    Kind {
        what: "build Stop Motor, stop byte and position",
        call: build_stop,
        arguments: &[(0x01, 0), (0x01, 1), (0x11, 1)],
    },
    Kind {
        what: "read a line, from and characters",
        call: read,
        arguments: &[(0, 0), (0, 5), (0, 20), (0, 22), (1, 4)],
    },
    Kind {
        what: "look, n and node",
        call: look,
        arguments: &[(31, 31), (32, 31), (32, 32), (255, 1), (255, 255)],
    },
];

/// The whole output.
pub fn run(rules: Rules) -> String {
    let mut text = String::new();
    for kind in KINDS {
        for (a, b) in kind.arguments {
            let mut buffer = [FILL; ROOM];
            let result = (kind.call)(rules, *a, *b, &mut buffer);
            let length = *result.as_ref().unwrap_or(&0) as u8;
            let answer = [&[number_of(&result), length], &buffer[..]].concat();
            let (arguments, answer) = (hex::format(&[*a, *b]), hex::format(&answer));
            text += &format!("{} {arguments}:{answer}\n", kind.what);
        }
    }
    text
}

/// A session made by hand, with a record as at power-up.
fn made(rules: Rules, n: u8, walk: u8) -> Session {
    Session {
        open: true,
        n,
        walk,
        ..Session::fresh(rules)
    }
}

fn set_address(address: u8, group: u8) -> Command {
    Command::SetAddress(Place {
        address,
        group,
        leader: true,
    })
}

/// A Set Address to a node, ordered from a session of two nodes.
fn order(rules: Rules, walk: u8, node: u8, buffer: &mut [u8]) -> Result<usize, Refusal> {
    let command = set_address(node, 0x81);
    made(rules, 2, walk).command(POWER_UP, Target::Node(node), command, buffer)
}

/// A Set Baud Rate to a node or a group, ordered from a session of two nodes.
fn order_pace(rules: Rules, walk: u8, address: u8, buffer: &mut [u8]) -> Result<usize, Refusal> {
    let to = match address {
        0x80.. => Target::Group(address),
        _ => Target::Node(address),
    };
    made(rules, 2, walk).command(POWER_UP, to, Command::SetBaudRate(0x0A), buffer)
}

/// A Set Baud Rate to group FF at a divisor, ordered from a ready session of two nodes.
fn order_pace_at(rules: Rules, at: u8, divisor: u8, buffer: &mut [u8]) -> Result<usize, Refusal> {
    let command = Command::SetBaudRate(divisor);
    made(rules, 2, 2).command(at, Target::Group(0xFF), command, buffer)
}

/// An address of kind 0, individual, or 1, group.
fn to(kind: u8, address: u8) -> Target {
    match kind {
        0 => Target::Node(address),
        _ => Target::Group(address),
    }
}

/// A Nop to an address of either kind.
fn build_nop(rules: Rules, kind: u8, address: u8, buffer: &mut [u8]) -> Result<usize, Refusal> {
    session::build(rules, to(kind, address), Command::Nop, buffer)
}

/// A Set Baud Rate of 0A to an address of either kind: it is the host that sends it to
/// groups alone.
fn build_pace(rules: Rules, kind: u8, address: u8, buffer: &mut [u8]) -> Result<usize, Refusal> {
    session::build(rules, to(kind, address), Command::SetBaudRate(0x0A), buffer)
}

/// A Set Address to node 1 with this place.
fn build_place(rules: Rules, address: u8, group: u8, buffer: &mut [u8]) -> Result<usize, Refusal> {
    session::build(rules, Target::Node(1), set_address(address, group), buffer)
}

/// A load for node 1 with this control byte, all else but the velocity 0.
fn build_load(
    rules: Rules,
    control: u8,
    velocity: u8,
    buffer: &mut [u8],
) -> Result<usize, Refusal> {
    let load = Motion {
        control,
        velocity: velocity.into(),
        ..Motion::ZERO
    };
    session::build(
        rules,
        Target::Node(1),
        Command::LoadTrajectory(load),
        buffer,
    )
}

/// A Stop Motor for node 1 with this stop byte and position.
fn build_stop(rules: Rules, byte: u8, position: u8, buffer: &mut [u8]) -> Result<usize, Refusal> {
    let stop = Stop {
        byte,
        position: position.into(),
    };
    session::build(rules, Target::Node(1), Command::StopMotor(stop), buffer)
}

/// A part of the line.
fn read(rules: Rules, from: u8, count: u8, buffer: &mut [u8]) -> Result<usize, Refusal> {
    let part: Vec<u8> = LINE
        .iter()
        .skip(usize::from(from))
        .take(usize::from(count))
        .copied()
        .collect();
    hex::read_into(rules, &part, buffer).ok_or(Refusal::OffRange)
}

/// A look at a node, from a session of n nodes.
fn look(rules: Rules, n: u8, node: u8, _: &mut [u8]) -> Result<usize, Refusal> {
    made(rules, n, 0).look(node).map(|_| 0)
}
