//! The record of one node: what is known of it, what is in doubt, and what a
//! command, confirmed or not, makes of that.

use crate::command::Command;
use crate::drive::{Motion, Value};
use crate::kind::Kind;
use crate::rules::{Mistake, Rules};
use crate::settings::{Setting, Settings};
use crate::target::Target;

/// All settings of a kind known.
pub fn all_known(kind: Kind) -> u16 {
    let own = Setting::all(kind).iter();
    own.map(|setting| setting.bit(kind)).sum()
}

/// The record of one node: last known values, and which of them are known, by
/// their bits.
#[derive(Clone, Copy, Debug, PartialEq, Eq)]
pub struct Entry {
    pub settings: Settings,
    pub known: u16,
}

impl Entry {
    pub fn power_up(rules: Rules, kind: Kind) -> Entry {
        Entry {
            settings: Settings::power_up(rules, kind),
            known: all_known(kind),
        }
    }

    pub fn kind(&self) -> Kind {
        self.settings.kind()
    }

    /// Whether the node's kind has a command.
    pub fn has(&self, command: Command) -> bool {
        command.is_of(self.kind())
    }

    pub fn knows(&self, setting: Setting) -> bool {
        self.known & setting.bit(self.kind()) != 0
    }

    /// Whether it is the known leader of a group: its place is known, and leads
    /// that group.
    pub fn leads(&self, group: u8) -> bool {
        let place = self.settings.place;
        self.knows(Setting::Place) && place.leader && place.group == group
    }

    pub fn put_in_doubt(&mut self, setting: Setting) {
        self.known &= !setting.bit(self.kind());
    }

    /// The divisor, as a Nop's good clear reply tells it.
    pub fn learn_divisor(&mut self, divisor: u8) {
        self.settings.divisor = divisor;
        self.known |= Setting::Divisor.bit(self.kind());
    }

    /// Takes over one setting, known and new.
    fn learn(&mut self, setting: Setting, new: &Settings) {
        self.settings.take(setting, new);
        self.known |= setting.bit(self.kind());
    }
}

/// Which settings a command writes at a node of a kind, a load's own before those
/// that it starts. "Nop, Read Status and Synch Input write no setting"; nor does
/// Reset Position, since the position "is no setting", nor what the kind lacks.
pub fn written_by(kind: Kind, command: Command) -> Vec<Setting> {
    match command {
        _ if !command.is_of(kind) => Vec::new(),
        Command::SetAddress(_) => vec![Setting::Place],
        Command::DefineStatus(_) => vec![Setting::Mask],
        Command::SetBaudRate(_) => vec![Setting::Divisor],
        Command::HardReset => Setting::all(kind).to_vec(),
        Command::SetPwm(_) => vec![Setting::Pwm],
        Command::SynchOutput => vec![Setting::Outputs, Setting::Pwm],
        Command::SetOutputs(_) => vec![Setting::Outputs],
        Command::SetSynchOutput(_) => vec![Setting::Held],
        Command::SetTimerMode(_) => vec![Setting::TimerMode],
        Command::SetGain(_) => vec![Setting::Gains],
        Command::StopMotor(_) => vec![Setting::Stop],
        Command::StartMotion => Value::ALL.map(Setting::InForce).to_vec(),
        Command::LoadTrajectory(load) => written_by_load(load),
        Command::ReadStatus(_) | Command::SynchInput | Command::Nop | Command::ResetPosition => {
            Vec::new()
        }
    }
}

/// A load writes what its bits say, and always the control byte, into waiting;
/// with the start bit all five are copied then (DECISIONS 103).
fn written_by_load(load: Motion) -> Vec<Setting> {
    let brought = Value::ALL.into_iter().filter(|value| load.brings(*value));
    let mut written: Vec<Setting> = brought.map(Setting::Waiting).collect();
    if load.starts() {
        written.extend(Value::ALL.map(Setting::InForce));
    }
    written
}

/// The setting that a command copies into the one that it writes.
pub fn copied_into(command: Command, written: Setting) -> Option<Setting> {
    match (command, written) {
        (Command::SynchOutput, _) => Some(Setting::Held),
        (Command::StartMotion | Command::LoadTrajectory(_), Setting::InForce(value)) => {
            Some(Setting::Waiting(value))
        }
        _ => None,
    }
}

/// A command at one node for which it is confirmed: "makes what it writes known
/// and new, except .. copies of a held set in doubt", or of a waiting value. What
/// a load brings is known by then.
pub fn confirm_entry(rules: Rules, entry: &mut Entry, target: Target, command: Command) {
    let new = entry.settings.after(rules, command);
    let before = *entry;
    for setting in slipped_writes(rules, entry.kind(), command, true) {
        let copied = copied_into(command, setting);
        let doubtful = copied.is_some_and(|own| !entry.knows(own));
        if slipped_doubt(rules, &before, (target, command), doubtful) {
            entry.put_in_doubt(setting);
        } else {
            entry.learn(setting, &new);
        }
    }
    if rules.slips(Mistake::ReplyHealsPlace) && !target.is_group() {
        entry.known |= Setting::Place.bit(entry.kind());
    }
}

/// A command at one node that it may have written and for which it isn't
/// confirmed.
pub fn doubt_entry(rules: Rules, entry: &mut Entry, command: Command) {
    let new = entry.settings.after(rules, command);
    if rules.slips(Mistake::SameValueSure) && new == entry.settings {
        return;
    }
    for setting in slipped_writes(rules, entry.kind(), command, false) {
        entry.put_in_doubt(setting);
        if rules.slips(Mistake::DoubtShowsNew) {
            entry.settings.take(setting, &new);
        }
    }
    if rules.slips(Mistake::ReadStatusDoubts) && matches!(command, Command::ReadStatus(_)) {
        entry.put_in_doubt(Setting::Mask);
    }
}

// ---- Mistakes alone ----------------------------------------------------

/// Whether a copy goes into doubt, with the mistakes in finding it.
fn slipped_doubt(
    rules: Rules,
    before: &Entry,
    (target, command): (Target, Command),
    doubtful: bool,
) -> bool {
    let slips = |mistake| rules.slips(mistake);
    let in_doubt = |value: &Value| !before.knows(Setting::Waiting(*value));
    match command {
        Command::SynchOutput => {
            let passed_over = slips(Mistake::DoubtfulCopied)
                || slips(Mistake::LeaderCopiesDoubtful) && target.is_group();
            doubtful && !passed_over
        }
        Command::StartMotion if slips(Mistake::DoubtfulStarted) => false,
        Command::LoadTrajectory(_) if slips(Mistake::DoubtfulStartedByLoad) => false,
        Command::StartMotion if slips(Mistake::OneDoubtStopsAll) => Value::ALL.iter().any(in_doubt),
        _ => doubtful,
    }
}

/// What a mistaken host takes a command to write, confirmed or not.
fn slipped_writes(rules: Rules, kind: Kind, command: Command, confirmed: bool) -> Vec<Setting> {
    let slips = |mistake| rules.slips(mistake);
    let mut written = written_by(kind, command);
    match command {
        Command::LoadTrajectory(_) if !confirmed && slips(Mistake::LoadDoubtsAll) => {
            written.extend(Value::ALL.map(Setting::Waiting));
        }
        Command::LoadTrajectory(_) if !confirmed && slips(Mistake::ControlStaysKnown) => {
            written.retain(|own| *own != Setting::Waiting(Value::Control));
        }
        Command::LoadTrajectory(load) if slips(Mistake::BroughtAloneWritten) => {
            written.retain(|own| match own {
                Setting::InForce(value) => load.brings(*value),
                _ => true,
            });
        }
        Command::ResetPosition if slips(Mistake::ResetPositionWrites) && kind == Kind::Drive => {
            written.push(Setting::InForce(Value::Position));
        }
        Command::StopMotor(_) if !confirmed && slips(Mistake::StopDoubtsMotion) => {
            written.extend(Value::ALL.map(Setting::InForce));
        }
        _ => {}
    }
    written
}
