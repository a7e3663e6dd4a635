//! What `replay` says of packets, of settings and of what has changed.

use crate::command::{Command, Held, Place};
use crate::drive::{Gains, Motion, Stop, Value};
use crate::hex;
use crate::kind::Kind;
use crate::packet::{self, Packet};
use crate::record::Entry;
use crate::recording::Change;
use crate::refusal::Refusal;
use crate::rules::{Mistake, Rules};
use crate::session::Outcome;
use crate::settings::{DriveSettings, GateSettings, Own, Setting};

/// What a command says that the host sends: "its name, its data .., and whom it
/// is for".
pub fn sent(rules: Rules, bytes: &[u8], command: Command) -> String {
    let target = target(rules, bytes[1]);
    format!("{}{target}", name_and_data(rules, command))
}

/// What a command says that isn't the host's; or why it is no packet.
pub fn foreign(rules: Rules, bytes: &[u8], kinds: &[Kind]) -> String {
    let packet = match packet::read(rules, bytes) {
        Ok(packet) => packet,
        Err(refusal) => return misread(refusal).to_string(),
    };
    if packet.end < bytes.len() && !rules.slips(Mistake::LeftOverUnsaid) {
        return "bytes left over".to_string();
    }
    match read(rules, &packet, kinds) {
        Some(command) if !is_unnamed(rules, packet.address, command) => sent(rules, bytes, command),
        _ => other(rules, packet.address),
    }
}

/// "To a node 1 to n, as that node's kind reads it; to any other address or a
/// group, as an LS-773 reads it, or, where that gives another command, as an
/// LS-173AP does." Values off their ranges are another command, too.
fn read(rules: Rules, packet: &Packet, kinds: &[Kind]) -> Option<Command> {
    let in_range =
        |command: &Command| command.is_in_range(rules) || rules.slips(Mistake::OffRangeNamed);
    let by = |kind: Kind| {
        let command = Command::decode(kind, packet.command_byte, packet.data);
        command.filter(in_range)
    };
    let node = usize::from(packet.address).checked_sub(1);
    match node.and_then(|index| kinds.get(index)) {
        Some(_) if rules.slips(Mistake::ForeignIsGates) => by(Kind::Gate),
        Some(kind) => by(*kind),
        None if rules.slips(Mistake::ElsewhereIsGates) => by(Kind::Gate),
        None => by(Kind::Gate).or_else(|| by(Kind::Drive)),
    }
}

/// "What is no packet."
fn misread(refusal: Refusal) -> &'static str {
    match refusal {
        Refusal::Short => "cut short",
        Refusal::NoHeader => "no header",
        Refusal::WrongSum => "wrong sum",
        _ => "too long", // which only a mistake says of a packet
    }
}

/// Whether a mistaken reader calls a Set Baud Rate another command, to anyone or by an
/// individual address.
fn is_unnamed(rules: Rules, address: u8, command: Command) -> bool {
    let individual = address < 0x80 && rules.slips(Mistake::PaceToNodeUnsaid);
    let paces = matches!(command, Command::SetBaudRate(_));
    paces && (individual || rules.slips(Mistake::PaceUnsaid))
}

fn other(rules: Rules, address: u8) -> String {
    match rules.slips(Mistake::OtherTargetSaid) {
        true => format!("another command{}", target(rules, address)),
        false => "another command".to_string(),
    }
}

/// A command's name, and its data.
pub fn name_and_data(rules: Rules, command: Command) -> String {
    match command {
        Command::SetAddress(own) => format!("Set Address {}", place(rules, own)),
        Command::DefineStatus(mask) => format!("Define Status {mask:02X}"),
        Command::ReadStatus(mask) => format!("Read Status {mask:02X}"),
        Command::SetPwm(pair) => format!("Set PWM {}", hex::format(&pair)),
        Command::SynchOutput => "Synch Output".to_string(),
        Command::SetOutputs(own) => format!("Set Outputs {}", outputs(rules, own)),
        Command::SetSynchOutput(own) => format!("Set Synch Output {}", held(rules, own)),
        Command::SetTimerMode(mode) => format!("Set Timer Mode {mode:02X}"),
        Command::SetBaudRate(divisor) => format!("Set Baud Rate {divisor:02X}"),
        Command::SynchInput => "Synch Input".to_string(),
        Command::Nop => "Nop".to_string(),
        Command::HardReset => "Hard Reset".to_string(),
        Command::ResetPosition => "Reset Position".to_string(),
        Command::LoadTrajectory(own) => format!("Load Trajectory {}", load(rules, own)),
        Command::StartMotion => "Start Motion".to_string(),
        Command::SetGain(own) => format!("Set Gain {}", gains(own)),
        Command::StopMotor(own) => format!("Stop Motor {}", stop(rules, own)),
    }
}

/// "The control byte, then each value that it loads, in that order; a value that
/// isn't loaded isn't named."
fn load(rules: Rules, own: Motion) -> String {
    let brought = Value::ALL[1..].iter().filter(|value| own.brings(**value));
    let mut words = vec![format!("{:02X}", own.control)];
    words.extend(match rules.slips(Mistake::UnbroughtSaid) {
        true => Value::ALL[1..]
            .iter()
            .map(|one| value(rules, *one, own))
            .collect::<Vec<_>>(),
        false => brought.map(|one| value(rules, *one, own)).collect(),
    });
    words.join(" ")
}

fn stop(rules: Rules, own: Stop) -> String {
    let byte = format!("{:02X}", own.byte);
    match own.has_position() {
        true => format!("{byte} position {}", position(rules, own.position)),
        false => byte,
    }
}

fn gains(own: Gains) -> String {
    format!(
        "KP {:04X} KD {:04X} KI {:04X} IL {:04X} OL {:02X} EL {:04X} SR {:02X} DB {:02X}",
        own.kp, own.kd, own.ki, own.il, own.ol, own.el, own.sr, own.db
    )
}

/// One of the five values, its name first.
fn value(rules: Rules, one: Value, own: Motion) -> String {
    match one {
        Value::Control => format!("control {:02X}", own.control),
        Value::Position => format!("position {}", position(rules, own.position)),
        Value::Velocity => format!("velocity {:08X}", own.velocity),
        Value::Acceleration => format!("acceleration {:08X}", own.acceleration),
        Value::Pwm => format!("PWM {:02X}", own.pwm),
    }
}

/// "A position is signed: eight digits of its size, with `-` in front if it is
/// negative."
fn position(rules: Rules, own: i32) -> String {
    if rules.slips(Mistake::PositionUnsigned) {
        return format!("{own:08X}");
    }
    let sign = if own < 0 { "-" } else { "" };
    format!("{sign}{:08X}", own.unsigned_abs())
}

/// "` to node 2` (its individual address in decimal), ` to address 00` for
/// address 00, ` to group 80`."
fn target(rules: Rules, address: u8) -> String {
    match address {
        0x00 if !rules.slips(Mistake::Address00IsNode) => " to address 00".to_string(),
        0x80.. => format!(" to group {address:02X}"),
        _ if rules.slips(Mistake::NodeInHex) => format!(" to node {address:X}"),
        _ => format!(" to node {address}"),
    }
}

/// What a reply says, by itself.
pub fn reply(rules: Rules, outcome: Outcome) -> &'static str {
    match outcome {
        Outcome::Clear => "clear",
        Outcome::Marked if rules.slips(Mistake::NotClearIsNotGood) => "not good",
        Outcome::Marked => "not clear",
        Outcome::Unconfirmed => "not good",
    }
}

/// CHANGES: "the settings that the record shows otherwise than before, node by
/// node .. or `no change`".
pub fn changes(rules: Rules, change: &Change) -> String {
    let pairs = change.before.iter().zip(&change.after);
    let nodes: Vec<String> = (1..)
        .zip(pairs)
        .filter_map(|(node, (before, after))| {
            let changed: Vec<String> = in_sequence(rules, after.kind())
                .into_iter()
                .filter(|own| is_changed(rules, *own, before, after))
                .map(|own| setting(rules, own, after))
                .collect();
            let drive = drive_said(after, rules.slips(Mistake::DriveSaidInChanges));
            let line = format!("node {node}{drive}: {}", changed.join(", "));
            (!changed.is_empty()).then_some(line)
        })
        .collect();
    match nodes.is_empty() {
        true => "no change".to_string(),
        false => nodes.join("; "),
    }
}

/// The settings of a node of this kind as they are told: place, mask, divisor, and
/// then its kind's own.
fn in_sequence(rules: Rules, kind: Kind) -> Vec<Setting> {
    let mut settings = Setting::all(kind).to_vec();
    let divisor = settings.pop();
    if !rules.slips(Mistake::DivisorUnsaid) {
        settings.splice(2..2, divisor);
    }
    settings
}

/// Whether a setting's value is another, or its doubt.
fn is_changed(rules: Rules, own: Setting, before: &Entry, after: &Entry) -> bool {
    let shown = shown(rules, own, before) != shown(rules, own, after);
    let doubt = before.knows(own) != after.knows(own);
    shown || doubt && !rules.slips(Mistake::DoubtIsNoChange)
}

/// A line of the record: all settings that a node of this kind has.
pub fn entry(rules: Rules, node: u8, entry: &Entry) -> String {
    let all = in_sequence(rules, entry.kind()).into_iter();
    let all: Vec<String> = all.map(|own| setting(rules, own, entry)).collect();
    let drive = drive_said(entry, !rules.slips(Mistake::DriveUnsaid));
    format!("node {node}{drive}: {}", all.join(", "))
}

/// "The line of a drive begins `node 2, drive: `."
fn drive_said(entry: &Entry, said: bool) -> &'static str {
    match entry.kind() {
        Kind::Drive if said => ", drive",
        _ => "",
    }
}

/// "Its name, its value as the record shows it, and ` in doubt` where it is."
fn setting(rules: Rules, own: Setting, entry: &Entry) -> String {
    let shown = shown(rules, own, entry);
    match entry.knows(own) || rules.slips(Mistake::DoubtUnsaid) {
        true => shown,
        false => format!("{shown} in doubt"),
    }
}

fn shown(rules: Rules, own: Setting, entry: &Entry) -> String {
    let settings = &entry.settings;
    match (own, &settings.own) {
        (Setting::Place, _) => format!("place {}", place(rules, settings.place)),
        (Setting::Mask, _) => format!("mask {:02X}", settings.mask),
        (Setting::Divisor, _) => format!("divisor {:02X}", settings.divisor),
        (own, Own::Gate(gate)) => shown_of_gate(rules, own, gate),
        (own, Own::Drive(drive)) => shown_of_drive(rules, own, drive),
    }
}

fn shown_of_gate(rules: Rules, own: Setting, gate: &GateSettings) -> String {
    match own {
        Setting::Outputs => format!("outputs {}", outputs(rules, gate.outputs)),
        Setting::Pwm => format!("PWM {}", hex::format(&gate.pwm)),
        Setting::Held => format!("held {}", held(rules, gate.held)),
        _ => format!("timer {:02X}", gate.timer_mode),
    }
}

fn shown_of_drive(rules: Rules, own: Setting, drive: &DriveSettings) -> String {
    match own {
        Setting::Gains => format!("gains {}", gains(drive.gains)),
        Setting::Waiting(one) if rules.slips(Mistake::WaitingUnsaid) => {
            value(rules, one, drive.waiting)
        }
        Setting::Waiting(one) => format!("waiting {}", value(rules, one, drive.waiting)),
        Setting::InForce(one) => value(rules, one, drive.in_force),
        _ => format!("stop {:02X}", drive.stop),
    }
}

/// "Address, group, and whether the node is to lead."
fn place(rules: Rules, own: Place) -> String {
    let leads = own.leader && !rules.slips(Mistake::LeadUnsaid);
    let leader = if leads { " leader" } else { "" };
    format!("{:02X} group {:02X}{leader}", own.address, own.group)
}

/// "One number of four digits, most significant first."
fn outputs(rules: Rules, own: u16) -> String {
    match rules.slips(Mistake::OutputsLowFirst) {
        true => format!("{:04X}", own.swap_bytes()),
        false => format!("{own:04X}"),
    }
}

fn held(rules: Rules, own: Held) -> String {
    format!("{} {}", outputs(rules, own.outputs), hex::format(&own.pwm))
}
