//! "A command is one of these kinds, each with its own data": those of an LS-773,
//! those of an LS-173AP, and those that both have (request 6).

use crate::drive::{Gains, Motion, Stop};
use crate::kind::Kind;
use crate::rules::Rules;

/// The place: individual address, group, leader or not.
#[derive(Clone, Copy, Debug, PartialEq, Eq)]
pub struct Place {
    pub address: u8,
    pub group: u8,
    pub leader: bool,
}

impl Place {
    /// "Address 0x00, group 0xFF, no leader."
    pub const POWER_UP: Place = Place::member(0x00, 0xFF);

    /// "The group is the second byte with bit 7 set; the node is leader
    /// exactly if bit 7 was clear."
    pub fn from_data(address: u8, second: u8) -> Place {
        Place {
            address,
            group: second | 0x80,
            leader: second & 0x80 == 0,
        }
    }

    /// The two data bytes of the Set Address that gives this place.
    pub fn data(self) -> [u8; 2] {
        let second = if self.leader {
            self.group & 0x7F
        } else {
            self.group
        };
        [self.address, second]
    }

    /// A place without lead.
    pub const fn member(address: u8, group: u8) -> Place {
        Place {
            address,
            group,
            leader: false,
        }
    }
}

/// The held set: outputs and PWM pair.
#[derive(Clone, Copy, Debug, PartialEq, Eq)]
pub struct Held {
    pub outputs: u16,
    pub pwm: [u8; 2],
}

/// One of the seventeen commands with its data. "Synch Output and Start Motion share
/// a byte and are two commands here"; so do Set PWM and a Load Trajectory of a PWM
/// value alone.
#[derive(Clone, Copy, Debug, PartialEq, Eq)]
pub enum Command {
    // Of both kinds of node.
    SetAddress(Place),
    DefineStatus(u8),
    ReadStatus(u8),
    Nop,
    HardReset,
    SetBaudRate(u8),
    // Of an LS-773.
    SetPwm([u8; 2]),
    SynchOutput,
    SetOutputs(u16),
    SetSynchOutput(Held),
    SetTimerMode(u8),
    SynchInput,
    // Of an LS-173AP.
    ResetPosition,
    LoadTrajectory(Motion),
    StartMotion,
    SetGain(Gains),
    StopMotor(Stop),
}

/// Eleven of an LS-773 as command bytes: the count in the high nibble. Set Baud Rate,
/// which is "set only by group", is by itself.
pub const COMMAND_BYTES: [u8; 11] = [
    0x21, 0x12, 0x13, 0x24, 0x05, 0x26, 0x47, 0x18, 0x0C, 0x0E, 0x0F,
];

/// Set Baud Rate, which both kinds have.
pub const SET_BAUD_RATE: u8 = 0x1A;

/// The five of an LS-173AP alone, Load Trajectory with each count that it has,
/// Stop Motor with both.
pub const DRIVE_BYTES: [u8; 13] = [
    0x00, 0x14, 0x24, 0x54, 0x64, 0x94, 0xA4, 0xD4, 0xE4, 0x05, 0xE6, 0x17, 0x57,
];

impl Command {
    /// What a node of this kind takes a command byte and its data for. None for
    /// "others, and a count that isn't the one given", and for a Set Address whose
    /// first byte is no address: it too "changes nothing" and is replied to. Values
    /// may be off their ranges.
    pub fn decode(kind: Kind, command_byte: u8, data: &[u8]) -> Option<Command> {
        let own = match kind {
            Kind::Gate => gate_s_own(command_byte, data),
            Kind::Drive => drive_s_own(command_byte, data),
        };
        own.or_else(|| shared(kind, command_byte, data))
    }

    /// The commands that some kind of node takes these for, an LS-773's first:
    /// one, two where they share a byte, or none.
    pub fn readings(command_byte: u8, data: &[u8]) -> Vec<Command> {
        let mut commands: Vec<Command> = Vec::new();
        for command in Kind::ALL.map(|kind| Command::decode(kind, command_byte, data)) {
            commands.extend(command.filter(|own| !commands.contains(own)));
        }
        commands
    }

    /// The one kind of node that has it; None where both have.
    pub fn owner(self) -> Option<Kind> {
        match self {
            Command::SetAddress(_)
            | Command::DefineStatus(_)
            | Command::ReadStatus(_)
            | Command::Nop
            | Command::HardReset
            | Command::SetBaudRate(_) => None,
            Command::SetPwm(_)
            | Command::SynchOutput
            | Command::SetOutputs(_)
            | Command::SetSynchOutput(_)
            | Command::SetTimerMode(_)
            | Command::SynchInput => Some(Kind::Gate),
            Command::ResetPosition
            | Command::LoadTrajectory(_)
            | Command::StartMotion
            | Command::SetGain(_)
            | Command::StopMotor(_) => Some(Kind::Drive),
        }
    }

    /// Whether nodes of this kind have it.
    pub fn is_of(self, kind: Kind) -> bool {
        self.owner().is_none_or(|owner| owner == kind)
    }

    /// Whether it says "a value outside the manual's ranges, a reserved bit set, or
    /// more than one of a Stop byte's bits 1 to 4" nowhere (request 6).
    pub fn is_in_range(self, rules: Rules) -> bool {
        match self {
            Command::LoadTrajectory(load) => load.is_in_range(rules),
            Command::SetGain(gains) => gains.is_in_range(rules),
            Command::StopMotor(stop) => stop.is_in_range(rules),
            _ => true,
        }
    }

    /// The command byte, with the command's own count.
    pub fn byte(self) -> u8 {
        (self.data().len() as u8) << 4 | self.nibble()
    }

    /// The command: the low nibble of its byte.
    pub fn nibble(self) -> u8 {
        match self {
            Command::ResetPosition => 0x0,
            Command::SetAddress(_) => 0x1,
            Command::DefineStatus(_) => 0x2,
            Command::ReadStatus(_) => 0x3,
            Command::SetPwm(_) | Command::LoadTrajectory(_) => 0x4,
            Command::SynchOutput | Command::StartMotion => 0x5,
            Command::SetOutputs(_) | Command::SetGain(_) => 0x6,
            Command::SetSynchOutput(_) | Command::StopMotor(_) => 0x7,
            Command::SetTimerMode(_) => 0x8,
            Command::SetBaudRate(_) => 0xA,
            Command::SynchInput => 0xC,
            Command::Nop => 0xE,
            Command::HardReset => 0xF,
        }
    }

    /// The data bytes, least significant first.
    pub fn data(self) -> Vec<u8> {
        match self {
            Command::SetAddress(place) => place.data().to_vec(),
            Command::DefineStatus(byte)
            | Command::ReadStatus(byte)
            | Command::SetTimerMode(byte)
            | Command::SetBaudRate(byte) => vec![byte],
            Command::SetPwm(pair) => pair.to_vec(),
            Command::SetOutputs(outputs) => outputs.to_le_bytes().to_vec(),
            Command::SetSynchOutput(held) => [held.outputs.to_le_bytes(), held.pwm].concat(),
            Command::LoadTrajectory(load) => load.data(),
            Command::SetGain(gains) => gains.data(),
            Command::StopMotor(stop) => stop.data(),
            Command::SynchOutput
            | Command::SynchInput
            | Command::Nop
            | Command::HardReset
            | Command::ResetPosition
            | Command::StartMotion => Vec::new(),
        }
    }
}

/// What both kinds of node have. An individual address is "0x00 to 0x7F" in 001
/// and "0x01-0x7F" in 000.
fn shared(kind: Kind, command_byte: u8, data: &[u8]) -> Option<Command> {
    let least = u8::from(kind == Kind::Drive);
    Some(match (command_byte, data) {
        (0x21, &[address, second]) if (least..=0x7F).contains(&address) => {
            Command::SetAddress(Place::from_data(address, second))
        }
        (0x12, &[mask]) => Command::DefineStatus(mask),
        (0x13, &[mask]) => Command::ReadStatus(mask),
        (SET_BAUD_RATE, &[divisor]) => Command::SetBaudRate(divisor),
        (0x0E, []) => Command::Nop,
        (0x0F, []) => Command::HardReset,
        _ => return None,
    })
}

/// What an LS-773 alone has.
fn gate_s_own(command_byte: u8, data: &[u8]) -> Option<Command> {
    Some(match (command_byte, data) {
        (0x24, &[first, second]) => Command::SetPwm([first, second]),
        (0x05, []) => Command::SynchOutput,
        (0x26, &[low, high]) => Command::SetOutputs(u16::from_le_bytes([low, high])),
        (0x47, &[low, high, first, second]) => Command::SetSynchOutput(Held {
            outputs: u16::from_le_bytes([low, high]),
            pwm: [first, second],
        }),
        (0x18, &[mode]) => Command::SetTimerMode(mode),
        (0x0C, []) => Command::SynchInput,
        _ => return None,
    })
}

/// What an LS-173AP alone has. The count is the data's own.
fn drive_s_own(command_byte: u8, data: &[u8]) -> Option<Command> {
    if usize::from(command_byte >> 4) != data.len() {
        return None;
    }
    Some(match command_byte & 0x0F {
        0x0 if data.is_empty() => Command::ResetPosition,
        0x4 => Command::LoadTrajectory(Motion::from_data(data)?),
        0x5 if data.is_empty() => Command::StartMotion,
        0x6 => Command::SetGain(Gains::from_data(data)?),
        0x7 => Command::StopMotor(Stop::from_data(data)?),
        _ => return None,
    })
}
