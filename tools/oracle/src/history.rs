//! Doubt as the acceptance conditions define it, computed from what was sent
//! and answered alone. Nothing here looks at the session's record.
//!
//! "It is in doubt exactly if the last command that could have written it was
//! unconfirmed, went to a group while the node's group was in doubt, or
//! copied a setting in doubt. A reply with the checksum bit set makes its
//! command count as unsent." Of a group command "a good clear reply .. confirms
//! only the leader, if known" (request 4): the one that the group was known to
//! have when the command was sent. "A Nop to a node at a divisor, with a good clear
//! reply, makes it known, and demand 3 counts it as confirming" (request 7): such a
//! Nop is a command that wrote the node's divisor, confirmed; without such a reply it
//! could have written nothing.

use crate::command::{Command, Place};
use crate::rules::{Mistake, Rules};
use crate::settings::Setting;
use crate::target::Target;

/// How a command was answered.
#[derive(Clone, Copy, PartialEq, Eq)]
enum Answered {
    Nothing,
    GoodAndClear,
}

/// A command that counts as sent.
struct Sent {
    target: Target,
    command: Command,
    answered: Answered,
}

/// The commands since the last power-up that count as sent, in order.
pub struct History {
    rules: Rules,
    sent: Vec<Sent>,
    /// Whom the command that waits asks after, if it is an ask.
    asking: Option<Target>,
}

impl History {
    /// At a power-up: nothing has been sent.
    pub fn new(rules: Rules) -> History {
        History {
            rules,
            sent: Vec::new(),
            asking: None,
        }
    }

    /// A command goes out; until it is answered it is unconfirmed. A Nop
    /// during the walk is an ask, no command of its own: its good clear reply
    /// confirms the Set Address it asks after.
    pub fn send(&mut self, target: Target, command: Command, walking: bool) {
        self.asking = Some(target).filter(|_| walking && command == Command::Nop);
        if self.asking.is_none() {
            self.sent.push(Sent {
                target,
                command,
                answered: Answered::Nothing,
            });
        }
    }

    /// What came back: good if 2 to 19 bytes end in the sum of the others.
    pub fn answer(&mut self, bytes: &[u8]) {
        let total: u32 = bytes
            .iter()
            .rev()
            .skip(1)
            .map(|byte| u32::from(*byte))
            .sum();
        let good = (2..=19).contains(&bytes.len())
            && bytes
                .last()
                .is_some_and(|last| u32::from(*last) == total % 256);
        let clear = bytes.first().is_some_and(|status| status & 2 == 0);
        if good && clear {
            if let Some(last) = self.sent.last_mut() {
                last.answered = Answered::GoodAndClear;
            }
            self.sent.extend(self.asking.map(|target| Sent {
                target,
                command: Command::Nop,
                answered: Answered::GoodAndClear,
            }));
        } else if good && self.asking.is_none() {
            self.sent.pop();
        }
    }

    /// Whether a node's setting is in doubt now.
    pub fn in_doubt(&self, node: u8, setting: Setting) -> bool {
        self.in_doubt_before(self.sent.len(), node, setting)
    }

    /// Whether it was in doubt when so many commands had been sent. The three tests
    /// are the demand's; the first takes in the second, since no leader in doubt is
    /// known.
    fn in_doubt_before(&self, time: usize, node: u8, setting: Setting) -> bool {
        let Some(last) = self.last_writer(time, node, setting) else {
            return false;
        };
        let sent = &self.sent[last];
        !self.is_confirmed_for(last, node)
            || sent.target.is_group() && self.in_doubt_before(last, node, Setting::Place)
            || copied(sent.command, setting)
                .is_some_and(|copied| self.in_doubt_before(last, node, copied))
    }

    /// Whether a command is confirmed for a node: by a good clear reply, and where
    /// it went to a group, only if the node was its known leader then.
    fn is_confirmed_for(&self, at: usize, node: u8) -> bool {
        let sent = &self.sent[at];
        let confirms = match sent.target {
            Target::Node(_) => true,
            Target::Group(group) => self.slipped_lead(at, node, group),
        };
        sent.answered == Answered::GoodAndClear && confirms
    }

    /// Whether a node was known to lead a group when so many commands had been
    /// sent.
    fn leads(&self, time: usize, node: u8, group: u8) -> bool {
        let told = self.told(time, node);
        !self.in_doubt_before(time, node, Setting::Place) && told.leader && told.group == group
    }

    /// The last command before a time that could have written the setting.
    fn last_writer(&self, time: usize, node: u8, setting: Setting) -> Option<usize> {
        (0..time)
            .rev()
            .find(|at| self.writes(&self.sent[*at], setting) && self.could_write(*at, node))
    }

    /// Whether a command writes a setting, where the node's kind has both: a Nop only
    /// the divisor, and only where it told of it.
    fn writes(&self, sent: &Sent, setting: Setting) -> bool {
        if setting != Setting::Divisor || sent.command != Command::Nop {
            return writes(sent.command, setting);
        }
        let answered = sent.answered == Answered::GoodAndClear && !sent.target.is_group();
        answered && !self.rules.slips(Mistake::HistoryNopWritesNothing)
    }

    /// Whether a command could have written to a node: sent to it, or to a group
    /// that it was known to be in, or while its place was in doubt.
    fn could_write(&self, at: usize, node: u8) -> bool {
        match self.sent[at].target {
            Target::Node(other) => other == node,
            Target::Group(group) => {
                self.in_doubt_before(at, node, Setting::Place) || self.told(at, node).group == group
            }
        }
    }

    /// The place that a node was last told before a time, or powered up with.
    fn told(&self, time: usize, node: u8) -> Place {
        let writer = self.last_writer(time, node, Setting::Place);
        match writer.map(|at| self.sent[at].command) {
            Some(Command::SetAddress(place)) => place,
            _ => Place::POWER_UP,
        }
    }

    /// Whether a node is the one that a group's reply confirms for, with the
    /// mistakes in finding it.
    fn slipped_lead(&self, at: usize, node: u8, group: u8) -> bool {
        let slips = |mistake| self.rules.slips(mistake);
        if slips(Mistake::LeadJudgedLater) {
            return self.leads(self.sent.len(), node, group);
        }
        self.leads(at, node, group)
            || slips(Mistake::HistoryConfirmsMembers)
            || slips(Mistake::AllHearAlike)
    }
}

/// Whether a command writes a setting by its own data.
fn writes(command: Command, setting: Setting) -> bool {
    match setting {
        Setting::Place => matches!(command, Command::SetAddress(_)),
        Setting::Mask => matches!(command, Command::DefineStatus(_)),
        Setting::Divisor => matches!(command, Command::SetBaudRate(_)),
        Setting::Outputs => matches!(command, Command::SetOutputs(_) | Command::SynchOutput),
        Setting::Pwm => matches!(command, Command::SetPwm(_) | Command::SynchOutput),
        Setting::Held => matches!(command, Command::SetSynchOutput(_)),
        Setting::TimerMode => matches!(command, Command::SetTimerMode(_)),
        Setting::Gains => matches!(command, Command::SetGain(_)),
        Setting::Stop => matches!(command, Command::StopMotor(_)),
        Setting::Waiting(value) => {
            matches!(command, Command::LoadTrajectory(load) if load.brings(value))
        }
        Setting::InForce(_) => match command {
            Command::LoadTrajectory(load) => load.starts(),
            _ => command == Command::StartMotion,
        },
    }
}

/// The setting that a command copies into one that it writes. What a load brings
/// is loaded by then and no copy of what waited before.
fn copied(command: Command, setting: Setting) -> Option<Setting> {
    match (command, setting) {
        (Command::SynchOutput, _) => Some(Setting::Held),
        (Command::StartMotion, Setting::InForce(value)) => Some(Setting::Waiting(value)),
        (Command::LoadTrajectory(load), Setting::InForce(value)) if !load.brings(value) => {
            Some(Setting::Waiting(value))
        }
        _ => None,
    }
}
