//! The host that a recording is gone along with.

use super::{Change, Did, Line, Part, Step};
use crate::call::after_sending;
use crate::record::Entry;
use crate::refusal::Refusal;
use crate::rules::{Mistake, Rules};
use crate::session::{Exchange, Outcome, Session, MOST_NODES};

/// The host's session, and what a packet does to it.
pub struct Host {
    rules: Rules,
    pub session: Session,
    /// The exchange that was open last, and a reply that came too early: only
    /// a mistaken host looks at them.
    last: Exchange,
    early: Option<Vec<u8>>,
}

impl Host {
    pub fn new(rules: Rules) -> Host {
        Host {
            rules,
            session: Session::fresh(rules),
            last: Exchange::Idle,
            early: None,
        }
    }

    pub fn take(&mut self, part: Part, bytes: &[u8]) -> Step {
        match part.line {
            Line::Command => self.take_command(part, bytes),
            Line::Reply => Step {
                part,
                silence: None,
                did: self.take_reply(bytes),
            },
        }
    }

    /// "A command with no reply before the next .. is silent", also where the
    /// next is one that the host couldn't have sent.
    fn take_command(&mut self, part: Part, bytes: &[u8]) -> Step {
        let before = self.session.clone();
        let silence = match self.rules.slips(Mistake::WaitingForbidsNext) {
            true => None,
            false => self.fall_silent(Mistake::NextDropsWaiting),
        };
        let did = match after_sending(&self.session, bytes) {
            Some(sent) => {
                self.session = sent.session;
                self.last = self.session.exchange;
                self.mistake_early_reply();
                match self.session.is_open() {
                    true => Did::Sent(sent.command),
                    false => Did::Closed,
                }
            }
            None => {
                self.mistake_foreign(before);
                Did::Foreign
            }
        };
        Step { part, silence, did }
    }

    fn take_reply(&mut self, bytes: &[u8]) -> Did {
        if !self.session.waits() {
            self.mistake_stray(bytes);
            return Did::Stray;
        }
        if self.passes_over(bytes) {
            return Did::Stray;
        }
        Did::Answered(self.change(|session| session.report(bytes)))
    }

    /// ".. or the end, is silent".
    pub fn end(&mut self) -> Option<Change> {
        if self.rules.slips(Mistake::EndKeepsWaiting) {
            return None;
        }
        self.fall_silent(Mistake::EndDropsWaiting)
    }

    /// The command that waits, if one does, is silent.
    fn fall_silent(&mut self, dropped: Mistake) -> Option<Change> {
        if self.rules.slips(dropped) {
            self.session.exchange = Exchange::Idle;
        }
        let waits = self.session.waits();
        waits.then(|| self.change(Session::silence))
    }

    /// What closing the exchange that is open changes.
    fn change(&mut self, close: impl FnOnce(&mut Session) -> Result<(), Refusal>) -> Change {
        let before = self.record();
        close(&mut self.session).expect("an exchange is open");
        Change {
            before,
            after: self.record(),
        }
    }

    /// What is recorded of nodes 1 to n.
    fn record(&self) -> Vec<Entry> {
        let nodes = self.session.n.min(MOST_NODES);
        self.session.entries[..usize::from(nodes)].to_vec()
    }
}

// ---- Mistakes alone ----------------------------------------------------

impl Host {
    /// Whether a reply leaves the command waiting.
    fn passes_over(&self, bytes: &[u8]) -> bool {
        match self.session.judge(bytes) {
            Outcome::Marked => self.rules.slips(Mistake::MarkedPassedOver),
            Outcome::Unconfirmed => self.rules.slips(Mistake::BadReplyPassedOver),
            Outcome::Clear => false,
        }
    }

    /// A reply that no command waits for, kept for the next one or reported to
    /// the last.
    fn mistake_stray(&mut self, bytes: &[u8]) {
        if self.rules.slips(Mistake::EarlyReplyCounts) {
            self.early = Some(bytes.to_vec());
        }
        if self.rules.slips(Mistake::SecondReplyCounts) && self.last != Exchange::Idle {
            self.session.exchange = self.last;
            self.change(|session| session.report(bytes));
        }
    }

    fn mistake_early_reply(&mut self) {
        if let (Some(bytes), true) = (self.early.take(), self.session.waits()) {
            self.change(|session| session.report(&bytes));
        }
    }

    /// A command that waits when another one ends the walk.
    fn mistake_foreign(&mut self, before: Session) {
        if self.rules.slips(Mistake::ForeignKeepsWaiting) {
            self.session = before;
        } else if self.rules.slips(Mistake::ForeignDropsWaiting) {
            self.session = before;
            self.session.exchange = Exchange::Idle;
        } else if self.session.waits() {
            // Only where a mistake has not taken it as silent.
            self.change(Session::silence);
        }
    }
}
