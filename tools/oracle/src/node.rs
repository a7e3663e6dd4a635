//! "The node": what one LS-773 or LS-173AP holds, does and sends back.

mod mistaken;

use crate::command::Command;
use crate::kind::Kind;
use crate::packet::Packet;
use crate::rules::{Mistake, Rules};
use crate::settings::Settings;
use crate::status::{seal, MARK};
use mistaken::{misunderstood, slipped_items, slipped_settings, wrong_sum};

/// Values that only the bench sets; a Hard Reset leaves them.
#[derive(Clone, Copy, Debug, PartialEq, Eq)]
pub struct BenchValues {
    pub inputs: u16,
    pub counter: u32,
    pub analog: [u8; 3],
    pub device_id: u8,
    pub version: u8,
}

impl BenchValues {
    pub const ZERO: BenchValues = BenchValues {
        inputs: 0,
        counter: 0,
        analog: [0; 3],
        device_id: 0,
        version: 0,
    };
}

/// Inputs and counter as Synch Input last caught them.
#[derive(Clone, Copy, Debug, PartialEq, Eq)]
pub struct Captured {
    pub inputs: u16,
    pub counter: u32,
}

impl Captured {
    pub const ZERO: Captured = Captured {
        inputs: 0,
        counter: 0,
    };
}

/// "The drive's status items, all bench values" (request 6), of which only the
/// position is ever changed, by Reset Position and Hard Reset.
#[derive(Clone, Copy, Debug, PartialEq, Eq)]
pub struct DriveValues {
    pub position: i32,
    pub ad_value: u8,
    pub velocity: i16,
    pub auxiliary: u8,
    pub home: i32,
    pub device_id: u8,
    pub version: u8,
    pub position_error: i16,
}

impl DriveValues {
    pub const ZERO: DriveValues = DriveValues {
        position: 0,
        ad_value: 0,
        velocity: 0,
        auxiliary: 0,
        home: 0,
        device_id: 0,
        version: 0,
        position_error: 0,
    };
}

/// What a node shows that is no setting.
#[derive(Clone, Copy, Debug, PartialEq, Eq)]
pub enum Values {
    Gate {
        bench: BenchValues,
        captured: Captured,
    },
    Drive(DriveValues),
}

/// One node record. Its settings and its values are of one kind.
#[derive(Clone, Copy, Debug, PartialEq, Eq)]
pub struct Node {
    pub settings: Settings,
    pub addressed: bool,
    pub values: Values,
}

impl Values {
    /// "Bench values 0", nothing captured.
    pub fn zero(kind: Kind) -> Values {
        match kind {
            Kind::Gate => Values::Gate {
                bench: BenchValues::ZERO,
                captured: Captured::ZERO,
            },
            Kind::Drive => Values::Drive(DriveValues::ZERO),
        }
    }

    /// "Bench values stay", captured ones don't; "Reset Position and Hard Reset zero
    /// the position".
    fn reset(self, rules: Rules) -> Values {
        let mut new = self;
        match &mut new {
            Values::Gate { bench, captured } => {
                if !rules.slips(Mistake::CapturedSurvivesReset) {
                    *captured = Captured::ZERO;
                }
                if rules.slips(Mistake::BenchValuesReset) {
                    *bench = BenchValues::ZERO;
                }
            }
            Values::Drive(values) => {
                if !rules.slips(Mistake::PositionSurvivesReset) {
                    values.position = 0;
                }
                if rules.slips(Mistake::DriveValuesReset) {
                    *values = DriveValues::ZERO;
                }
            }
        }
        new
    }

    /// What a command does to them.
    fn after(self, rules: Rules, command: Command) -> Values {
        let mut new = self;
        match (command, &mut new) {
            (Command::SynchInput, Values::Gate { bench, captured }) => {
                captured.inputs = bench.inputs;
                captured.counter = bench.counter;
            }
            (Command::ResetPosition, Values::Drive(values)) => {
                if rules.slips(Mistake::ResetZeroesHome) {
                    values.home = 0;
                }
                if !rules.slips(Mistake::ResetPositionIdle) {
                    values.position = 0;
                }
            }
            (Command::HardReset, _) => new = self.reset(rules),
            _ => {}
        }
        new
    }

    /// The items of Define Status by mask bit, documents 001 and 000; bit 7 of a
    /// drive's mask stands for none.
    fn items(self, rules: Rules) -> [Vec<u8>; 8] {
        match self {
            Values::Gate { bench, captured } => [
                wide(rules, &bench.inputs.to_le_bytes()),
                vec![bench.analog[0]],
                vec![bench.analog[1]],
                vec![bench.analog[2]],
                wide(rules, &bench.counter.to_le_bytes()),
                vec![bench.device_id, bench.version],
                wide(rules, &captured.inputs.to_le_bytes()),
                wide(rules, &captured.counter.to_le_bytes()),
            ],
            Values::Drive(values) => [
                wide(rules, &values.position.to_le_bytes()),
                vec![values.ad_value],
                wide(rules, &values.velocity.to_le_bytes()),
                vec![values.auxiliary],
                wide(rules, &values.home.to_le_bytes()),
                vec![values.device_id, values.version],
                wide(rules, &values.position_error.to_le_bytes()),
                Vec::new(),
            ],
        }
    }
}

impl Node {
    /// "The power-up state belongs to the node kind": not addressed, the
    /// settings at their power-up values, bench values 0.
    pub fn powered_up(rules: Rules, kind: Kind) -> Node {
        Node {
            settings: Settings::power_up(rules, kind),
            addressed: false,
            values: Values::zero(kind),
        }
    }

    pub fn kind(&self) -> Kind {
        self.settings.kind()
    }

    /// The individual address.
    pub fn address(&self) -> u8 {
        self.settings.place.address
    }

    /// The group.
    pub fn group(&self) -> u8 {
        self.settings.place.group
    }

    /// The command that it takes a packet for: each node reads it by its
    /// kind. None for others, and for what is "replied to as a Nop is and not acted
    /// on" since a value is off its range (request 6), or since it is a Set Baud Rate
    /// that didn't come to its group (request 7).
    pub fn understand(&self, rules: Rules, packet: &Packet) -> Option<Command> {
        if let Some(command) = misunderstood(rules, self.kind(), packet) {
            return Some(command);
        }
        Command::decode(self.kind(), packet.command_byte, packet.data)
            .filter(|command| command.is_in_range(rules))
            .filter(|command| self.is_paced(rules, packet.address, *command))
    }

    /// "A node acts on it only when it came to its group, and keeps any divisor
    /// sent"; of every other command, whether it came so or not.
    fn is_paced(&self, rules: Rules, address: u8, command: Command) -> bool {
        match command {
            Command::SetBaudRate(divisor) => {
                let to_group = address == self.group();
                mistaken::is_paced(rules, self.kind(), to_group, divisor)
            }
            _ => true,
        }
    }

    /// The node once it has acted on a packet meant for it. "Wrong sum:
    /// nothing changes"; others change nothing either.
    pub fn after(&self, rules: Rules, packet: &Packet) -> Node {
        if !packet.intact && !rules.slips(Mistake::DamagedActs) {
            return *self;
        }
        match self.understand(rules, packet) {
            Some(command) => self.obey(rules, command),
            None => *self,
        }
    }

    /// The node once it has done a command.
    fn obey(&self, rules: Rules, command: Command) -> Node {
        let addressed = match command {
            Command::SetAddress(_) => true,
            Command::HardReset => self.addressed && rules.slips(Mistake::AddressedSurvivesReset),
            _ => self.addressed,
        };
        let mut new = Node {
            settings: slipped_settings(rules, self.settings, command),
            addressed,
            values: self.values.after(rules, command),
        };
        mistaken::mistake_home(rules, command, &mut new.values);
        new
    }

    /// The reply to a packet. "Read Status uses its own mask for its one
    /// reply. Other replies use the mask held after the command acted."
    /// Wrong sum: "the reply uses the held mask, with bit 1 set".
    pub fn reply(&self, rules: Rules, packet: &Packet) -> Vec<u8> {
        let after = self.after(rules, packet);
        let own_mask = match self.understand(rules, packet) {
            Some(Command::ReadStatus(mask)) => Some(mask),
            _ => None,
        };
        if !packet.intact {
            let marked = !rules.slips(Mistake::DamagedUnmarked);
            let own = own_mask.filter(|_| rules.slips(Mistake::DamagedReadOwnMask));
            return self.status(rules, own.unwrap_or(self.settings.mask), marked);
        }
        let held = if rules.slips(Mistake::OldMaskReplies) {
            self.settings.mask
        } else {
            after.settings.mask
        };
        let shown = if rules.slips(Mistake::OldValuesReply) {
            self
        } else {
            &after
        };
        shown.status(rules, own_mask.unwrap_or(held), false)
    }

    /// The status packet under a mask. "The model sends the other bits as 0."
    fn status(&self, rules: Rules, mask: u8, marked: bool) -> Vec<u8> {
        let status = if marked { MARK } else { 0 };
        let all = slipped_items(rules, self.kind(), self.values.items(rules));
        let asked = all.into_iter().enumerate();
        let items: Vec<Vec<u8>> = asked
            .filter(|(bit, item)| mask >> bit & 1 == 1 && !item.is_empty())
            .map(|(_, item)| item)
            .collect();
        let mut reply = seal(status, &items.concat());
        if let (Some(last), Some(wrong)) = (reply.last_mut(), wrong_sum(rules, status, &items)) {
            *last = wrong;
        }
        reply
    }
}

/// "Wide values go least significant byte first."
fn wide(rules: Rules, least_first: &[u8]) -> Vec<u8> {
    let mut bytes = least_first.to_vec();
    if rules.slips(Mistake::MostSignificantFirst) {
        bytes.reverse();
    }
    bytes
}
