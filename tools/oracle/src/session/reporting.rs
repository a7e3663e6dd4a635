//! What a report makes of the command that waits: how the reply is judged, whom
//! it confirms, who goes into doubt.

use super::{walk_command, Exchange, Session, MOST_NODES};
use crate::command::Command;
use crate::kind::Kind;
use crate::record::{confirm_entry, doubt_entry};
use crate::refusal::Refusal;
use crate::rules::Mistake;
use crate::settings::Setting;
use crate::status::{sum_is_right, MARK, T};
use crate::target::Target;

/// What a report says about the waiting command.
#[derive(Clone, Copy, Debug, PartialEq, Eq)]
pub enum Outcome {
    /// A good and clear reply.
    Clear,
    /// A good reply with bit 1 set: "the record stays as before".
    Marked,
    /// "All else counts as silence: unconfirmed."
    Unconfirmed,
}

impl Session {
    /// Closes the exchange with the bytes received. "Reporting gives only 8."
    pub fn report(&mut self, bytes: &[u8]) -> Result<(), Refusal> {
        self.close(self.judge(bytes))
    }

    /// Closes the exchange with silence.
    pub fn silence(&mut self) -> Result<(), Refusal> {
        self.close(Outcome::Unconfirmed)
    }

    /// "A reply is good if it has 2 to T + 2 bytes and its sum is right;
    /// clear if bit 1 is 0."
    pub fn judge(&self, bytes: &[u8]) -> Outcome {
        let least = 2 - usize::from(self.rules.slips(Mistake::LoneByteIsGood));
        let most = T + 2 - usize::from(self.slips_into_16_items())
            + usize::from(self.rules.slips(Mistake::ReplyOf18Items));
        let whole = (least..=most).contains(&bytes.len());
        let right =
            bytes.len() < 2 || sum_is_right(bytes) || self.rules.slips(Mistake::BadSumConfirms);
        let mark = if self.rules.slips(Mistake::OtherBitsMark) {
            0xFF
        } else {
            MARK
        };
        match bytes.first() {
            Some(status) if whole && right && status & mark == 0 => Outcome::Clear,
            Some(_) if whole && right => Outcome::Marked,
            _ => Outcome::Unconfirmed,
        }
    }

    /// Closes the open exchange, or 8.
    fn close(&mut self, outcome: Outcome) -> Result<(), Refusal> {
        let open = self.waits() || self.rules.slips(Mistake::ClosedExchangeReports);
        let (at, target, command) = match self.exchange {
            Exchange::Waiting {
                at,
                target,
                command,
            } if open => (at, target, command),
            _ => return Err(Refusal::NothingToReport),
        };
        self.exchange = Exchange::Idle;
        match self.slipped_outcome(outcome, target, command) {
            Outcome::Clear => self.confirm(at, target, command),
            // "The record stays as before."
            Outcome::Marked => self.mistake_marked(at, target, command),
            Outcome::Unconfirmed => self.doubt(at, target, command),
        }
        self.mistake_nop(outcome, at, target, command);
        Ok(())
    }

    /// A good clear reply: the command "makes what it writes known and new" for
    /// the nodes that it is confirmed for, and "every other node that may be
    /// written goes into doubt" (request 4). A confirmed Set Address of the walk,
    /// by its own reply or by an ask's, moves the walk.
    fn confirm(&mut self, at: u8, target: Target, command: Command) {
        let in_walk = self.walks() && target == Target::Node(self.walk + 1);
        let asks = command == Command::Nop && in_walk && self.asks();
        self.learn_divisor(at, target, command, asks);
        let command = match asks {
            true => self.asked_after(),
            false => command,
        };
        let (confirmed, others) = self.parted(target, command);
        for index in confirmed {
            confirm_entry(self.rules, &mut self.entries[index], target, command);
        }
        if !self.rules.slips(Mistake::UnconfirmedKept) {
            self.doubt_each(&others, at, command);
        }
        if in_walk && matches!(command, Command::SetAddress(_)) {
            self.walk += 1;
        }
    }

    /// "A Nop to a node at a divisor, with a good clear reply, makes it known" (request
    /// 7): the divisor that the Nop was sent at, whatever was set before it. An ask is
    /// such a Nop, too; no other command's reply tells, and no group's.
    fn learn_divisor(&mut self, at: u8, target: Target, command: Command, asks: bool) {
        let tells = command == Command::Nop && !target.is_group();
        if !self.slipped_telling(tells, target, command, asks) {
            return;
        }
        for index in self.may_be_written(target) {
            let divisor = self.slipped_divisor(at, index);
            self.entries[index].learn_divisor(divisor);
        }
    }

    /// The nodes that may be written: those for which a good clear reply confirms
    /// the command, and the others.
    fn parted(&self, target: Target, command: Command) -> (Vec<usize>, Vec<usize>) {
        let written = self.may_be_written(target).into_iter();
        let paced = matches!(command, Command::SetBaudRate(_)) && self.slips_into_pacing();
        written.partition(|index| paced || self.is_confirmed_for(*index, target))
    }

    /// Whether a good clear reply confirms the command for a node that may be
    /// written: node k's own, and of a group "only the leader, if known" (request
    /// 4).
    fn is_confirmed_for(&self, index: usize, target: Target) -> bool {
        match target {
            Target::Node(_) => true,
            Target::Group(group) => {
                let leads = self.entries[index].leads(group);
                self.slipped_lead(leads, index, group)
            }
        }
    }

    /// The Set Address that an ask's reply confirms.
    fn asked_after(&self) -> Command {
        if self.rules.slips(Mistake::AskKeepsOldPlace) {
            return Command::SetAddress(self.entries[usize::from(self.walk)].settings.place);
        }
        walk_command(self.walk + 1)
    }

    /// Whether a Nop to the walk's next node is an ask.
    fn asks(&self) -> bool {
        self.ask_is_due() && !self.rules.slips(Mistake::AskConfirmsNothing)
    }

    /// "Unconfirmed: all that it may write goes into doubt. A setting in
    /// doubt shows its last known value."
    /// A divisor known to be another than the command was sent at spares no doubt:
    /// "a command at a divisor not known to be the node's stays "could have written""
    /// (request 7).
    pub(super) fn doubt(&mut self, at: u8, target: Target, command: Command) {
        self.doubt_each(&self.may_be_written(target), at, command);
    }

    fn doubt_each(&mut self, nodes: &[usize], at: u8, command: Command) {
        for index in nodes {
            if !self.slips_into_sparing(*index, at, command) {
                doubt_entry(self.rules, &mut self.entries[*index], command);
            }
        }
    }

    /// "Who may be written: node k for an individual command and for the
    /// walk's Set Address that gives k; for a group, nodes known to be in it
    /// and every node whose place is in doubt."
    pub(super) fn may_be_written(&self, target: Target) -> Vec<usize> {
        self.nodes()
            .filter(|index| match target {
                Target::Node(node) => *index + 1 == usize::from(node),
                Target::Group(group) => self.may_be_in(*index, group),
            })
            .collect()
    }

    fn may_be_in(&self, index: usize, group: u8) -> bool {
        let entry = &self.entries[index];
        if !entry.knows(Setting::Place) {
            return !self.rules.slips(Mistake::DoubtfulSpared);
        }
        entry.settings.place.group == group
            || self.rules.slips(Mistake::EveryLeaderCounts) && self.leads_any(index)
    }

    /// The entries of nodes 1 to n.
    fn nodes(&self) -> std::ops::Range<usize> {
        let all = self.rules.slips(Mistake::BeyondNWritten);
        let nodes = if all { MOST_NODES } else { self.n };
        0..usize::from(nodes.min(MOST_NODES))
    }
}

// ---- Mistakes alone ----------------------------------------------------

impl Session {
    /// Whether 17 item bytes are one too many for a mistaken host: always, or from a
    /// drive, whose own items add up to 16.
    fn slips_into_16_items(&self) -> bool {
        let drive_waits = match self.exchange {
            Exchange::Waiting { target, .. } => {
                let mut nodes = self.may_be_written(target).into_iter();
                nodes.any(|index| self.entries[index].kind() == Kind::Drive)
            }
            Exchange::Idle => false,
        };
        self.rules.slips(Mistake::ReplyOf16Items)
            || self.rules.slips(Mistake::DriveReplyOf16Items) && drive_waits
    }

    /// The outcome, with the mistakes in taking it.
    fn slipped_outcome(&self, outcome: Outcome, target: Target, command: Command) -> Outcome {
        let paces = matches!(command, Command::SetBaudRate(_));
        match outcome {
            Outcome::Unconfirmed if paces && self.rules.slips(Mistake::SilencePaces) => {
                Outcome::Clear
            }
            Outcome::Marked if paces && self.rules.slips(Mistake::MarkedPaceDoubts) => {
                Outcome::Unconfirmed
            }
            Outcome::Unconfirmed if self.rules.slips(Mistake::SilenceIsNotDone) => Outcome::Marked,
            Outcome::Unconfirmed if self.rules.slips(Mistake::SilenceIsDone) => Outcome::Clear,
            Outcome::Unconfirmed
                if self.rules.slips(Mistake::LeaderlessConfirms) && self.is_leaderless(target) =>
            {
                Outcome::Clear
            }
            Outcome::Marked if self.rules.slips(Mistake::MarkedConfirms) => Outcome::Clear,
            Outcome::Marked if self.rules.slips(Mistake::MarkedDoubts) => Outcome::Unconfirmed,
            _ => outcome,
        }
    }

    fn is_leaderless(&self, target: Target) -> bool {
        match target {
            Target::Node(_) => false,
            Target::Group(group) => self.may_lead(0, group),
        }
    }

    /// Whether a group's reply confirms for a node that leads or doesn't, with the
    /// mistakes in finding the one that it confirms for.
    fn slipped_lead(&self, leads: bool, index: usize, group: u8) -> bool {
        if self.rules.slips(Mistake::LeaderDoubted) {
            return false;
        }
        if self.rules.slips(Mistake::FirstLeaderTaken) {
            return leads && (0..index).all(|before| !self.leads_any(before));
        }
        leads || self.slips_into_confirming(index, group)
    }

    /// Whether a mistaken host confirms for one that isn't the known leader.
    fn slips_into_confirming(&self, index: usize, group: u8) -> bool {
        let slips = |mistake| self.rules.slips(mistake);
        let entry = &self.entries[index];
        if !entry.knows(Setting::Place) {
            let place = entry.settings.place;
            let led = place.leader && place.group == group;
            return slips(Mistake::DoubtfulConfirmed) || slips(Mistake::DoubtfulLeaderKnown) && led;
        }
        let is_led = self.nodes().any(|other| self.entries[other].leads(group));
        slips(Mistake::MembersConfirmed)
            || slips(Mistake::AllHearAlike)
            || slips(Mistake::LedMembersConfirmed) && is_led
            || slips(Mistake::UnledMembersConfirmed) && !is_led
            || slips(Mistake::LeaderlessConfirms) && self.is_leaderless(Target::Group(group))
            || slips(Mistake::EveryLeaderCounts) && self.leads_any(index)
    }

    /// Whether a node is the known leader of whatever group it is in.
    fn leads_any(&self, index: usize) -> bool {
        let entry = &self.entries[index];
        entry.leads(entry.settings.place.group)
    }

    /// What a mistaken host takes from a reply that isn't clear.
    fn mistake_marked(&mut self, at: u8, target: Target, command: Command) {
        if self.rules.slips(Mistake::MarkedDoubtsMembers) {
            let (_, others) = self.parted(target, command);
            self.doubt_each(&others, at, command);
        }
    }

    /// Whether a mistaken host takes a Set Baud Rate as confirmed for all that may be
    /// written.
    fn slips_into_pacing(&self) -> bool {
        self.rules.slips(Mistake::ReplyPacesMembers) || self.rules.slips(Mistake::SilencePaces)
    }

    /// Whether a mistaken host takes a good clear reply for a word about the divisor.
    fn slipped_telling(&self, tells: bool, target: Target, command: Command, asks: bool) -> bool {
        let slips = |mistake| self.rules.slips(mistake);
        let to_group = target.is_group();
        if asks && slips(Mistake::AskTellsNoDivisor) || slips(Mistake::NopTellsNothing) {
            return false;
        }
        tells
            || slips(Mistake::GroupNopTells) && to_group && command == Command::Nop
            || slips(Mistake::EveryReplyTells) && !to_group
    }

    /// The divisor that a mistaken host takes a Nop's reply to tell.
    fn slipped_divisor(&self, at: u8, index: usize) -> u8 {
        match self.set {
            Some(divisor) if self.rules.slips(Mistake::NopConfirmsPace) => divisor,
            _ if self.rules.slips(Mistake::NopTellsRecorded) => {
                self.entries[index].settings.divisor
            }
            _ => at,
        }
    }

    /// What a mistaken host makes of a Nop to a node that had no good clear reply.
    fn mistake_nop(&mut self, outcome: Outcome, at: u8, target: Target, command: Command) {
        if command != Command::Nop || target.is_group() || outcome == Outcome::Clear {
            return;
        }
        let silent = outcome == Outcome::Unconfirmed;
        let tells = match silent {
            true => self.rules.slips(Mistake::SilentNopTells),
            false => self.rules.slips(Mistake::MarkedNopTells),
        };
        let doubts = silent && self.rules.slips(Mistake::SilentNopDoubts);
        for index in self.may_be_written(target) {
            if tells {
                self.entries[index].learn_divisor(at);
            }
            if doubts {
                self.entries[index].put_in_doubt(Setting::Divisor);
            }
        }
    }

    /// Whether a mistaken host takes a node that is known to hear at another divisor
    /// as not written.
    fn slips_into_sparing(&self, index: usize, at: u8, command: Command) -> bool {
        let entry = &self.entries[index];
        let deaf = entry.knows(Setting::Divisor) && entry.settings.divisor != at;
        deaf && self.rules.slips(match command {
            Command::SetBaudRate(_) => Mistake::DeafPaceSpared,
            _ => Mistake::DeafSpared,
        })
    }
}
