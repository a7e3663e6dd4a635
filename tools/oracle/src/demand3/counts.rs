//! How often things happened, and how often a command met what requests 4, 6 and 7
//! are about.

use crate::command::Command;
use crate::drive::Value;
use crate::node::Node;
use crate::session::{Exchange, Session};
use crate::settings::Setting;
use crate::target::Target;

#[derive(Clone, Copy, Debug, Default)]
pub struct Counts {
    pub steps: usize,
    pub power_ups: usize,
    pub ready: usize,
    pub sent: usize,
    /// By one node, of one command.
    pub missed: usize,
    pub changed: usize,
    pub answered: usize,
    pub silent: usize,
    pub refused: usize,
    pub doubts: usize,
    pub checks: usize,
    /// By `Met`.
    pub met: [usize; Met::ALL.len()],
}

impl std::fmt::Display for Counts {
    fn fmt(&self, out: &mut std::fmt::Formatter) -> std::fmt::Result {
        write!(
            out,
            "demand 3 held: {} steps, {} power-ups, {} walks ended, {} commands sent, \
             {} times missed by a node, {} changed, {} replies, {} silences, {} refusals, \
             {} settings checked, {} of them in doubt; of commands",
            self.steps,
            self.power_ups,
            self.ready,
            self.sent,
            self.missed,
            self.changed,
            self.answered,
            self.silent,
            self.refused,
            self.checks,
            self.doubts
        )?;
        for ((_, words), count) in Met::ALL.iter().zip(self.met) {
            write!(out, ", {count} {words}")?;
        }
        Ok(())
    }
}

/// What a command can meet: one to a group, behind those a drive's, and then what
/// divisors bring.
#[derive(Clone, Copy, Debug, PartialEq, Eq)]
pub enum Met {
    MemberMissed,
    LeaderMissed,
    LeaderInDoubt,
    Leaderless,
    DoubtfulCopy,
    DoubtInside,
    DoubtOutside,
    DoubtfulStart,
    DoubtfulLoadStart,
    StartToGroup,
    PaceParts,
    PaceUnheard,
    DivisorFound,
    DivisorStayed,
    NodeDeaf,
    GroupParted,
}

impl Met {
    pub const ALL: [(Met, &'static str); 16] = [
        (Met::MemberMissed, "confirmed and missed by a member"),
        (Met::LeaderMissed, "missed by the leader, heard by a member"),
        (Met::LeaderInDoubt, "answered by a leader in doubt"),
        (Met::Leaderless, "to members without a leader"),
        (Met::DoubtfulCopy, "copying a leader's held set in doubt"),
        (Met::DoubtInside, "answered with a member in doubt"),
        (Met::DoubtOutside, "answered with another in doubt"),
        (Met::DoubtfulStart, "starting a waiting value in doubt"),
        (
            Met::DoubtfulLoadStart,
            "loading and starting another value in doubt",
        ),
        (
            Met::StartToGroup,
            "starting a group, confirmed for its leader",
        ),
        (Met::PaceParts, "setting the divisor of some members alone"),
        (Met::PaceUnheard, "setting a divisor, heard by no member"),
        (Met::DivisorFound, "telling another divisor than recorded"),
        (Met::DivisorStayed, "telling a divisor in doubt that stayed"),
        (Met::NodeDeaf, "at another divisor than its node's"),
        (Met::GroupParted, "at the divisor of some members alone"),
    ];
}

/// An exchange that is about to be closed: the host, the chain, who missed the
/// command, and whether the reply is good and clear. A node that is "in doubt"
/// is so about its place.
pub struct Closing<'a> {
    pub host: &'a Session,
    pub chain: &'a [Node],
    pub missed: &'a [bool],
    pub clear: bool,
}

impl Closing<'_> {
    /// All that the command has met.
    pub fn met(&self) -> Vec<Met> {
        let met = Met::ALL.into_iter().map(|(met, _)| met);
        match self.host.exchange {
            Exchange::Idle => Vec::new(),
            Exchange::Waiting {
                at,
                target,
                command,
            } => met
                .filter(|met| match target {
                    Target::Group(group) => {
                        self.meets(*met, group, command) || self.parts(*met, at, group, command)
                    }
                    Target::Node(node) => {
                        let index = usize::from(node - 1);
                        self.meets_at(*met, index, command) || self.tells(*met, at, index, command)
                    }
                })
                .collect(),
        }
    }

    /// What a command to one node meets.
    fn meets_at(&self, met: Met, index: usize, command: Command) -> bool {
        let mut values = Value::ALL.into_iter();
        let in_doubt = |value: &Value| !self.knows(index, Setting::Waiting(*value));
        match (met, command) {
            (Met::DoubtfulStart, Command::StartMotion) => {
                self.clear && values.any(|own| in_doubt(&own))
            }
            (Met::DoubtfulLoadStart, Command::LoadTrajectory(load)) => {
                let others = values.filter(|value| !load.brings(*value));
                self.clear && load.starts() && others.into_iter().any(|own| in_doubt(&own))
            }
            _ => false,
        }
    }

    /// What a command at a divisor to one node meets.
    fn tells(&self, met: Met, at: u8, index: usize, command: Command) -> bool {
        let recorded = self.host.entries[index].settings.divisor;
        let doubtful = !self.knows(index, Setting::Divisor);
        let nop = self.clear && command == Command::Nop;
        match met {
            Met::DivisorFound => nop && recorded != at,
            Met::DivisorStayed => nop && recorded == at && doubtful,
            Met::NodeDeaf => self.chain[index].settings.divisor != at,
            _ => false,
        }
    }

    /// What a command at a divisor to a group meets.
    fn parts(&self, met: Met, at: u8, group: u8, command: Command) -> bool {
        let members = self.chain.iter().filter(|node| node.group() == group);
        let divisors: Vec<u8> = members.map(|node| node.settings.divisor).collect();
        let some = |own: u8| divisors.contains(&own) && divisors.iter().any(|one| *one != own);
        match (met, command) {
            (Met::PaceParts, Command::SetBaudRate(divisor)) => some(divisor),
            (Met::PaceUnheard, Command::SetBaudRate(divisor)) => {
                !divisors.is_empty() && !divisors.contains(&divisor)
            }
            (Met::GroupParted, _) => some(at),
            _ => false,
        }
    }

    fn meets(&self, met: Met, group: u8, command: Command) -> bool {
        let nodes = || 0..self.chain.len();
        let inside = |index: usize| self.chain[index].group() == group;
        let leader = nodes().find(|index| inside(*index) && self.leads(*index));
        let known_leader = leader.filter(|index| self.knows(*index, Setting::Place));
        let mut members = nodes().filter(|index| inside(*index) && Some(*index) != leader);
        let in_doubt = |index: usize| !self.knows(index, Setting::Place);
        match met {
            Met::MemberMissed => {
                self.clear && known_leader.is_some() && members.any(|index| self.missed[index])
            }
            Met::LeaderMissed => {
                known_leader.is_some_and(|index| self.missed[index])
                    && members.any(|index| !self.missed[index])
            }
            Met::LeaderInDoubt => self.clear && leader.is_some_and(in_doubt),
            Met::Leaderless => leader.is_none() && members.next().is_some(),
            Met::DoubtfulCopy => {
                self.clear
                    && command == Command::SynchOutput
                    && known_leader.is_some_and(|index| !self.knows(index, Setting::Held))
            }
            Met::DoubtInside => self.clear && members.any(in_doubt),
            Met::DoubtOutside => {
                self.clear && nodes().any(|index| !inside(index) && in_doubt(index))
            }
            Met::StartToGroup => {
                self.clear && known_leader.is_some() && command == Command::StartMotion
            }
            Met::DoubtfulStart | Met::DoubtfulLoadStart => {
                known_leader.is_some_and(|index| self.meets_at(met, index, command))
            }
            _ => false,
        }
    }

    fn leads(&self, index: usize) -> bool {
        self.chain[index].settings.place.leader
    }

    fn knows(&self, index: usize, setting: Setting) -> bool {
        self.host.entries[index].knows(setting)
    }
}
