//! What a mistaken node makes of packets, settings and items.

use super::{DriveValues, Values};
use crate::command::{Command, Held, Place, COMMAND_BYTES, SET_BAUD_RATE};
use crate::divisor::listed;
use crate::drive::{Gains, Motion, Stop};
use crate::kind::Kind;
use crate::packet::{sum, Packet, MOST_DATA};
use crate::rules::{Mistake, Rules};
use crate::settings::{GateSettings, Own, Settings};

/// The sum that a mistaken node carries along as it writes its reply.
pub fn wrong_sum(rules: Rules, status: u8, items: &[Vec<u8>]) -> Option<u8> {
    if rules.slips(Mistake::ItemsSummedAnew) {
        return items.last().map(|item| sum(item));
    }
    if rules.slips(Mistake::StatusNotSummed) {
        return Some(sum(&items.concat()));
    }
    let firsts = items.iter().map(|item| item[0]);
    rules
        .slips(Mistake::FirstBytesSummed)
        .then(|| firsts.fold(status, u8::wrapping_add))
}

/// The items as a mistaken node has them.
pub fn slipped_items(rules: Rules, kind: Kind, mut items: [Vec<u8>; 8]) -> [Vec<u8>; 8] {
    if rules.slips(Mistake::VersionFirst) {
        items[5].reverse();
    }
    if kind == Kind::Drive {
        if rules.slips(Mistake::HomeBeforeAuxiliary) {
            items.swap(3, 4);
        }
        if rules.slips(Mistake::VelocityOf4Bytes) {
            items[2].extend([0, 0]);
        }
        if rules.slips(Mistake::MaskBit7Item) {
            items[7].push(0);
        }
    }
    items
}

/// What a mistaken node takes a packet for that says nothing to it, or something
/// else.
pub fn misunderstood(rules: Rules, kind: Kind, packet: &Packet) -> Option<Command> {
    if rules.slips(Mistake::CountIgnored) {
        return with_own_count(kind, packet);
    }
    if rules.slips(Mistake::ResetWithDataActs) && packet.command() == 0xF {
        return Some(Command::HardReset);
    }
    if rules.slips(Mistake::HighAddressTaken) && packet.command_byte == 0x21 {
        let place = Place::from_data(packet.data[0] & 0x7F, packet.data[1]);
        return Some(Command::SetAddress(place));
    }
    if let (0xA, &[divisor, _]) = (packet.command(), packet.data) {
        if rules.slips(Mistake::PaceOfTwoBytesActs) {
            return Some(Command::SetBaudRate(divisor));
        }
    }
    match kind {
        Kind::Gate => None,
        Kind::Drive => misunderstood_by_drive(rules, packet),
    }
}

/// Whether a node acts on a Set Baud Rate that came to its group or by its individual
/// address, with the mistakes in it.
pub fn is_paced(rules: Rules, kind: Kind, to_group: bool, divisor: u8) -> bool {
    let kept = listed(kind).contains(&divisor) || !rules.slips(Mistake::UnlistedPaceIgnored);
    kept && (to_group || rules.slips(Mistake::IndividualPaceActs))
}

/// The command that the low nibble names, data cut or filled to fit.
fn with_own_count(kind: Kind, packet: &Packet) -> Option<Command> {
    let mut bytes = COMMAND_BYTES.into_iter().chain([SET_BAUD_RATE]);
    let own = bytes.find(|byte| byte & 0x0F == packet.command())?;
    let mut data = packet.data.to_vec();
    data.resize(usize::from(own >> 4), 0);
    Command::decode(kind, own, &data)
}

fn misunderstood_by_drive(rules: Rules, packet: &Packet) -> Option<Command> {
    let slips = |mistake| rules.slips(mistake);
    let read = Command::decode(Kind::Drive, packet.command_byte, packet.data);
    match (packet.command_byte, packet.data) {
        (0x21, &[0x00, second]) if slips(Mistake::DriveTakesAddress00) => {
            Some(Command::SetAddress(Place::from_data(0x00, second)))
        }
        (0xE6, data) if slips(Mistake::TenthByteIgnored) => {
            let gains = Gains::from_fourteen(data.try_into().ok()?);
            Some(Command::SetGain(gains)).filter(|_| gains.is_in_range(rules))
        }
        (0x24, &[control, pwm]) if slips(Mistake::AnyPwmLoaded) => {
            Some(Command::LoadTrajectory(Motion {
                control: control & 0xF0 | 0x08,
                pwm,
                ..Motion::ZERO
            }))
        }
        (byte, data) if slips(Mistake::LoadCountFree) && byte & 0x0F == 0x04 => loaded(data),
        (0x57, &[byte, ..]) if slips(Mistake::StopHereUnasked) && byte & 0x10 == 0 => {
            Some(Command::StopMotor(Stop { byte, position: 0 }))
        }
        (0x17, &[byte @ 0x10..=0x11]) if slips(Mistake::StopHereNowhere) => {
            Some(Command::StopMotor(Stop { byte, position: 0 }))
        }
        (0x12, [mask]) if slips(Mistake::MaskBit7Refused) && *mask >= 0x80 => Some(Command::Nop),
        (0x0C, []) if slips(Mistake::SaveAsHomeActs) => Some(Command::SynchInput),
        _ => read.filter(|_| slips(Mistake::OffRangeActs)),
    }
}

/// A load with another count than its control byte makes: cut, or filled with 00.
fn loaded(data: &[u8]) -> Option<Command> {
    let filled = [data, &[0; MOST_DATA]].concat();
    let mut counts = 1..=MOST_DATA;
    let load = counts.find_map(|count| Motion::from_data(&filled[..count]))?;
    (!data.is_empty()).then_some(Command::LoadTrajectory(load))
}

/// Save as Home, for which a mistaken drive takes Synch Input's byte.
pub fn mistake_home(rules: Rules, command: Command, values: &mut Values) {
    if let (Command::SynchInput, Values::Drive(values)) = (command, values) {
        if rules.slips(Mistake::SaveAsHomeActs) {
            *values = DriveValues {
                home: values.position,
                ..*values
            };
        }
    }
}

/// The settings after a command, with the mistakes in storing them.
pub fn slipped_settings(rules: Rules, old: Settings, command: Command) -> Settings {
    let mut new = old.after(rules, command);
    match command {
        Command::SetAddress(_) if rules.slips(Mistake::LeaderBitInverted) => {
            new.place.leader = !new.place.leader;
        }
        Command::SetAddress(_) if rules.slips(Mistake::GroupBitLeftClear) => {
            new.place.group = new.place.data()[1];
        }
        Command::HardReset if rules.slips(Mistake::LeaderSurvivesReset) => {
            new.place.leader = old.place.leader;
        }
        Command::HardReset if rules.slips(Mistake::DivisorSurvivesReset) => {
            new.divisor = old.divisor;
        }
        Command::ReadStatus(mask) if rules.slips(Mistake::ReadStatusSticks) => new.mask = mask,
        Command::DefineStatus(mask)
            if rules.slips(Mistake::MaskBit7Dropped) && new.kind() == Kind::Drive =>
        {
            new.mask = mask & 0x7F;
        }
        _ => {}
    }
    if let (Own::Gate(new), Own::Gate(old)) = (&mut new.own, &old.own) {
        slip_gate(rules, old, command, new);
    }
    new
}

fn slip_gate(rules: Rules, old: &GateSettings, command: Command, new: &mut GateSettings) {
    match command {
        Command::SetPwm(_) if rules.slips(Mistake::SecondPwmFirst) => new.pwm.reverse(),
        Command::SetOutputs(_) if rules.slips(Mistake::OutputsCut) => new.outputs &= 0x7F,
        Command::SetTimerMode(_) if rules.slips(Mistake::TimerCut) => new.timer_mode &= 0x33,
        Command::SetSynchOutput(held) if rules.slips(Mistake::HeldPwmFirst) => {
            new.held = Held {
                outputs: u16::from_le_bytes(held.pwm),
                pwm: held.outputs.to_le_bytes(),
            };
        }
        Command::SynchOutput if rules.slips(Mistake::HeldPwmLeft) => new.pwm = old.pwm,
        Command::SynchOutput if rules.slips(Mistake::HeldSpent) => {
            new.held = GateSettings::POWER_UP.held;
        }
        _ => {}
    }
}
