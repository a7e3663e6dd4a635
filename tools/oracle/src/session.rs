//! "The host session": addressing the chain, sending commands, taking
//! replies and keeping a record of each node.

mod reporting;

use crate::command::{Command, Place};
use crate::divisor;
use crate::kind::Kind;
use crate::packet::{self, OVERHEAD};
use crate::record::Entry;
use crate::refusal::{require, Refusal};
use crate::rules::{Mistake, Rules};
use crate::settings::Setting;
use crate::target::Target;
pub use reporting::Outcome;

/// The most nodes a session can have, and the entries it always keeps.
pub const MOST_NODES: u8 = 31;

/// The default group, which the walk gives to every node.
const DEFAULT_GROUP: u8 = 0xFF;

/// The address at which a node waits for its Set Address.
const UNADDRESSED: u8 = 0x00;

/// "The open exchange holds the command that waits", with the divisor that it was
/// sent at.
#[derive(Clone, Copy, Debug, PartialEq, Eq)]
pub enum Exchange {
    Idle,
    Waiting {
        at: u8,
        target: Target,
        command: Command,
    },
}

/// A host session, as it can also be handed in by hand.
#[derive(Clone, Debug, PartialEq, Eq)]
pub struct Session {
    pub rules: Rules,
    pub open: bool,
    pub n: u8,
    pub walk: u8,
    pub exchange: Exchange,
    pub entries: [Entry; MOST_NODES as usize],
    /// The divisor that was set last: only a mistaken host keeps it.
    pub set: Option<u8>,
}

impl Session {
    /// "A fresh session is closed and has no nodes."
    pub fn fresh(rules: Rules) -> Session {
        Session {
            rules,
            open: false,
            n: 0,
            walk: 0,
            exchange: Exchange::Idle,
            entries: [Entry::power_up(rules, Kind::Gate); MOST_NODES as usize],
            set: None,
        }
    }

    /// Starts a session with n nodes of these kinds, at any time; a bad n, or
    /// another number of kinds than n, gives 6. "Each node gets a kind, told to the
    /// host at power-up" (request 6); beyond n it is an LS-773.
    pub fn power_up(&mut self, n: u8, kinds: &[Kind]) -> Result<(), Refusal> {
        let taken = (1..=MOST_NODES).contains(&n)
            || self.rules.slips(Mistake::PowerUpOf32) && [0, 32].contains(&n);
        require(taken && kinds.len() == usize::from(n), Refusal::OffRange)?;
        let mut new = Session::fresh(self.rules);
        self.mistake_kinds_beyond(&mut new);
        for (entry, kind) in new.entries.iter_mut().zip(kinds) {
            *entry = Entry::power_up(self.rules, *kind);
        }
        if self.rules.slips(Mistake::PowerUpKeepsExchange) {
            new.exchange = self.exchange;
        }
        if self.rules.slips(Mistake::PowerUpKeepsRecord) {
            new.entries = self.entries;
        }
        *self = Session {
            open: true,
            n,
            ..new
        };
        Ok(())
    }

    /// "Next" sends Set Address to 0x00 with the next address.
    pub fn next(&mut self, at: u8, buffer: &mut [u8]) -> Result<usize, Refusal> {
        self.require_idle_for_walk(at)?;
        require(self.next_is_due(), Refusal::NotDue)?;
        self.later_divisors(Mistake::DivisorAfterWalk, at, None)?;
        let target = Target::Node(self.walk + 1);
        let command = walk_command(self.walk + 1);
        self.send(at, UNADDRESSED, (target, command), buffer)
    }

    /// "Ask": a Nop to the new address, due only after an unconfirmed one.
    pub fn ask(&mut self, at: u8, buffer: &mut [u8]) -> Result<usize, Refusal> {
        self.require_idle_for_walk(at)?;
        let anytime = self.rules.slips(Mistake::AskAnytime) && self.walks();
        require(self.ask_is_due() || anytime, Refusal::NotDue)?;
        self.later_divisors(Mistake::DivisorAfterWalk, at, None)?;
        let node = self.walk + 1;
        self.send(at, node, (Target::Node(node), Command::Nop), buffer)
    }

    /// One of the fifteen commands of a ready session, to a node or a group. Set
    /// Address and Set Baud Rate are not among them: 6. Values off their ranges are 6,
    /// too, whomever they are for: "the host refuses it with 6" (request 6).
    pub fn command(
        &mut self,
        at: u8,
        target: Target,
        command: Command,
        buffer: &mut [u8],
    ) -> Result<usize, Refusal> {
        self.slip_into_range_check(target)?;
        self.mistake_range_at(Mistake::ValuesBeforeOpen, command)?;
        self.require_idle_at(at, None)?;
        if let (Target::Node(node), true) = (target, self.rules.slips(Mistake::NodeBeforeRange)) {
            self.require_node(node)?;
        }
        self.mistake_kind_before_node(target, command)?;
        self.require_range(command)?;
        self.require_group(target)?;
        self.require_divisors(at, None, &LATER)?;
        if let Target::Node(node) = target {
            self.require_node(node)?;
        }
        self.later_divisors(Mistake::DivisorAfterNode, at, None)?;
        self.mistake_range_at(Mistake::ValuesAfterNode, command)?;
        if self.rules.slips(Mistake::WalkBeforeKind) {
            self.require_walk_ended()?;
        }
        self.require_kinds(target, command)?;
        self.mistake_range_at(Mistake::ValuesAfterKind, command)?;
        self.require_walk_ended()?;
        self.later_divisors(Mistake::DivisorAfterWalk, at, None)?;
        let length = self.send(at, target.address(), (target, command), buffer)?;
        if command == Command::HardReset {
            self.hard_reset(at, target);
        }
        Ok(length)
    }

    /// "Regroup sends Set Address to node k with address k, group and leader
    /// wish."
    pub fn regroup(
        &mut self,
        at: u8,
        node: u8,
        group: u8,
        leader: bool,
        buffer: &mut [u8],
    ) -> Result<usize, Refusal> {
        self.slip_into_range_check(Target::Group(group))?;
        self.require_idle_at(at, None)?;
        if self.rules.slips(Mistake::NodeBeforeRange) {
            self.require_node(node)?;
        }
        self.require_group(Target::Group(group))?;
        self.require_divisors(at, None, &LATER)?;
        self.require_node(node)?;
        self.later_divisors(Mistake::DivisorAfterNode, at, None)?;
        self.require_walk_ended()?;
        self.later_divisors(Mistake::DivisorAfterWalk, at, None)?;
        if self.rules.slips(Mistake::RoomBeforeLeader) {
            require(buffer.len() >= 6, Refusal::NoRoom)?;
        }
        let wish = leader || self.rules.slips(Mistake::JoiningForbidden);
        require(
            !wish || self.may_lead(node, group),
            Refusal::LeaderForbidden,
        )?;
        let place = Place {
            address: node,
            group,
            leader: leader && !self.rules.slips(Mistake::LeaderWishSentAsMember),
        };
        let command = Command::SetAddress(place);
        self.send(at, node, (Target::Node(node), command), buffer)
    }

    /// "Bring in Set Baud Rate .. set only by group" (request 7).
    pub fn set_baud_rate(
        &mut self,
        at: u8,
        group: u8,
        divisor: u8,
        buffer: &mut [u8],
    ) -> Result<usize, Refusal> {
        let target = Target::Group(group);
        self.slip_into_range_check(target)?;
        self.require_idle_at(at, Some(divisor))?;
        self.require_group(target)?;
        let later = [Mistake::DivisorAfterWalk, Mistake::DivisorAfterPaced];
        self.require_divisors(at, Some(divisor), &later)?;
        if self.rules.slips(Mistake::PacedBeforeWalk) {
            require(self.may_be_paced(group), Refusal::Paced)?;
        }
        self.require_walk_ended()?;
        self.later_divisors(Mistake::DivisorAfterWalk, at, Some(divisor))?;
        if self.rules.slips(Mistake::RoomBeforePaced) {
            require(buffer.len() > OVERHEAD, Refusal::NoRoom)?;
        }
        require(self.may_be_paced(group), Refusal::Paced)?;
        self.later_divisors(Mistake::DivisorAfterPaced, at, Some(divisor))?;
        let command = Command::SetBaudRate(divisor);
        let length = self.send(at, group, (target, command), buffer)?;
        self.set = Some(divisor).filter(|_| self.rules.slips(Mistake::NopConfirmsPace));
        Ok(length)
    }

    /// What the record has of a node 1 to n, whether the session counts as
    /// closed or not. There are entries for 31 nodes, whatever n is.
    pub fn look(&self, node: u8) -> Result<&Entry, Refusal> {
        if self.rules.slips(Mistake::LookAsksClosed) {
            require(self.is_open(), Refusal::SessionClosed)?;
        }
        self.require_node(node)?;
        let past = self.rules.slips(Mistake::LookPastRecord) && node > MOST_NODES;
        let index = usize::from(if past { MOST_NODES } else { node }) - 1;
        self.entries.get(index).ok_or(Refusal::NoSuchNode)
    }
}

/// The state that the calls look at.
impl Session {
    /// "One handed in with n above 31, a walk past n, or waiting on a node
    /// not 1 to n counts as closed with no exchange open."
    pub fn is_open(&self) -> bool {
        self.open && (self.is_valid() || self.rules.slips(Mistake::HandedInTrusted))
    }

    fn is_valid(&self) -> bool {
        let waits_in_range = match self.exchange {
            Exchange::Waiting {
                target: Target::Node(node),
                ..
            } => (1..=self.n).contains(&node),
            _ => true,
        };
        self.n <= MOST_NODES && self.walk <= self.n && waits_in_range
    }

    /// Whether an exchange is open.
    pub fn waits(&self) -> bool {
        self.is_open() && self.exchange != Exchange::Idle
    }

    /// Whether the walk has not ended.
    pub fn walks(&self) -> bool {
        self.walk < self.n && self.walk < MOST_NODES
    }

    /// Whether "ask" is due: the last Set Address of the walk is unconfirmed.
    pub fn ask_is_due(&self) -> bool {
        self.walks() && !self.entries[usize::from(self.walk)].knows(Setting::Place)
    }

    /// Whether "next" is due.
    pub fn next_is_due(&self) -> bool {
        let refused = self.ask_is_due() && !self.rules.slips(Mistake::NextAfterSilence);
        self.walks() && !refused
    }

    /// The first two of the host order, 12 and 7.
    fn require_idle(&self) -> Result<(), Refusal> {
        require(self.is_open(), Refusal::SessionClosed)?;
        require(!self.waits(), Refusal::ExchangeOpen)
    }

    /// 12 and 7 of "next" and "ask", and 18 right behind them: they take no argument
    /// that could be off its range.
    fn require_idle_for_walk(&self, at: u8) -> Result<(), Refusal> {
        self.require_idle_at(at, None)?;
        if self.rules.slips(Mistake::WalkAtPowerUpsAlone) {
            require(at == divisor::POWER_UP, Refusal::Divisor)?;
        }
        self.require_divisors(at, None, &[Mistake::DivisorAfterWalk])
    }

    /// 12 and 7, with 18 before or between them and 6 for a mistaken host.
    fn require_idle_at(&self, at: u8, set: Option<u8>) -> Result<(), Refusal> {
        self.later_divisors(Mistake::DivisorBeforeOpen, at, set)?;
        self.require_idle()?;
        self.later_divisors(Mistake::DivisorBeforeRange, at, set)
    }

    /// 6: group below 0x80.
    fn require_group(&self, target: Target) -> Result<(), Refusal> {
        match target {
            Target::Group(group) => require(group >= 0x80, Refusal::OffRange),
            Target::Node(_) => Ok(()),
        }
    }

    /// 18, "right after 6": any other divisor than those listed for the chain, to be
    /// sent at or to be set. A mistaken host that looks for it later passes here.
    fn require_divisors(&self, at: u8, set: Option<u8>, later: &[Mistake]) -> Result<(), Refusal> {
        let passed = later.iter().any(|place| self.rules.slips(*place));
        require(passed || self.lists_all(at, set), Refusal::Divisor)
    }

    fn lists_all(&self, at: u8, set: Option<u8>) -> bool {
        let slips = |mistake| self.rules.slips(mistake);
        let kinds = self.kinds_on_chain();
        let lists = |divisor| divisor::is_listed(self.rules, &kinds, divisor);
        let sent = lists(at) || slips(Mistake::SentAtAny);
        let set = set.is_none_or(lists) || slips(Mistake::AnySet);
        sent && set
    }

    /// The kinds of nodes 1 to n.
    fn kinds_on_chain(&self) -> Vec<Kind> {
        let beyond = self.rules.slips(Mistake::KindsBeyondListed);
        let n = if beyond { MOST_NODES } else { self.n };
        let nodes = self.entries.iter().take(usize::from(n));
        nodes.map(Entry::kind).collect()
    }

    /// Whether 19 isn't due: "Set Baud Rate to a group that a known member leads, or
    /// while any place is in doubt".
    fn may_be_paced(&self, group: u8) -> bool {
        let nodes = self.entries.iter().take(usize::from(self.n));
        let led = nodes.clone().any(|entry| entry.leads(group));
        let in_doubt = nodes.clone().any(|entry| !entry.knows(Setting::Place));
        self.slipped_pace(!led && !in_doubt, group)
    }

    /// 10: node not 1 to n.
    fn require_node(&self, node: u8) -> Result<(), Refusal> {
        if self.rules.slips(Mistake::WalkBeforeNode) {
            self.require_walk_ended()?;
        }
        require((1..=self.n).contains(&node), Refusal::NoSuchNode)
    }

    /// 17: "a command that the kind of a node it may reach lacks (node k; for a
    /// group, known members and nodes with place in doubt)".
    fn require_kinds(&self, target: Target, command: Command) -> Result<(), Refusal> {
        let mut reached = self.may_be_written(target).into_iter();
        let lacked = reached.any(|index| !self.entries[index].has(command));
        let refused = self.slipped_lack(lacked, target, command);
        require(!refused, Refusal::KindLacks)
    }

    /// 6: a Set Address or a Set Baud Rate, which aren't ordered so, or a value off its
    /// range.
    fn require_range(&self, command: Command) -> Result<(), Refusal> {
        let slips = |mistake| self.rules.slips(mistake);
        let ordered = match command {
            Command::SetAddress(_) => slips(Mistake::SetAddressOrdered),
            Command::SetBaudRate(_) => slips(Mistake::PaceOrdered),
            _ => true,
        };
        let passed_over = slips(Mistake::OffRangeSent)
            || slips(Mistake::ValuesAfterNode)
            || slips(Mistake::ValuesAfterKind);
        let in_range = command.is_in_range(self.rules) || passed_over;
        require(ordered && in_range, Refusal::OffRange)
    }

    /// 9: walk not ended.
    fn require_walk_ended(&self) -> Result<(), Refusal> {
        require(!self.walks(), Refusal::NotDue)
    }

    /// 11: "leader wish, while another node leads that group or has its
    /// place in doubt".
    pub fn may_lead(&self, node: u8, group: u8) -> bool {
        let own = self.rules.slips(Mistake::OwnLeadForbids);
        (1..=self.n.min(MOST_NODES))
            .filter(|other| own || *other != node)
            .all(|other| self.leaves_lead_free(other, group))
    }

    fn leaves_lead_free(&self, node: u8, group: u8) -> bool {
        let entry = &self.entries[usize::from(node - 1)];
        if !entry.knows(Setting::Place) {
            return self.rules.slips(Mistake::DoubtfulMayLead);
        }
        !entry.leads(group) || self.rules.slips(Mistake::TwoLeaders)
    }

    /// Mistake: the group's range is looked at before 12 and 7.
    fn slip_into_range_check(&self, target: Target) -> Result<(), Refusal> {
        match target {
            Target::Group(group) if self.rules.slips(Mistake::RangeBeforeOpen) => {
                require(group >= 0x80, Refusal::OffRange)
            }
            _ => Ok(()),
        }
    }
}

/// What the calls change.
impl Session {
    /// Builds the packet at the start of the lent buffer, or 5, and opens
    /// the exchange.
    fn send(
        &mut self,
        at: u8,
        address: u8,
        (target, command): (Target, Command),
        buffer: &mut [u8],
    ) -> Result<usize, Refusal> {
        let nibble = command.nibble();
        let length = packet::build(self.rules, buffer, address, nibble, &command.data())?;
        let at = match self.rules.slips(Mistake::WaitsAtPowerUps) {
            true => divisor::POWER_UP,
            false => at,
        };
        self.exchange = Exchange::Waiting {
            at,
            target,
            command,
        };
        Ok(length)
    }

    /// "Hard Reset closes the session and puts all settings in doubt", and
    /// it opens no exchange.
    fn hard_reset(&mut self, at: u8, target: Target) {
        if !self.rules.slips(Mistake::ResetWaits) {
            self.exchange = Exchange::Idle;
        }
        self.open = self.rules.slips(Mistake::ResetKeepsSession);
        if self.rules.slips(Mistake::ResetDoubtsTarget) {
            self.doubt(at, target, Command::HardReset);
        } else if !self.rules.slips(Mistake::ResetKeepsKnown) {
            let kept = self.rules.slips(Mistake::ResetKeepsDivisors);
            for entry in &mut self.entries {
                let divisor = Setting::Divisor.bit(entry.kind());
                entry.known &= if kept { divisor } else { 0 };
            }
        }
        if self.rules.slips(Mistake::ResetChangesKinds) {
            self.entries = Session::fresh(self.rules).entries;
            self.entries.iter_mut().for_each(|entry| entry.known = 0);
        }
    }
}

// ---- Mistakes alone ----------------------------------------------------

/// Where a mistaken host looks for 18 later than it should.
const LATER: [Mistake; 2] = [Mistake::DivisorAfterNode, Mistake::DivisorAfterWalk];

impl Session {
    /// 18, where a mistaken host looks for it.
    fn later_divisors(&self, place: Mistake, at: u8, set: Option<u8>) -> Result<(), Refusal> {
        let asked = self.rules.slips(place);
        require(!asked || self.lists_all(at, set), Refusal::Divisor)
    }

    /// Whether a mistaken host sends a Set Baud Rate to a group.
    fn slipped_pace(&self, may: bool, group: u8) -> bool {
        let slips = |mistake| self.rules.slips(mistake);
        let beyond = slips(Mistake::PacedByEntriesBeyond);
        let n = if beyond { MOST_NODES } else { self.n };
        let nodes = self.entries.iter().take(usize::from(n));
        let led = nodes.clone().any(|entry| entry.leads(group));
        let in_doubt = |entry: &&Entry| !entry.knows(Setting::Place);
        let mut doubtful = nodes.clone().filter(in_doubt);
        if slips(Mistake::PacedUnheeded) {
            return true;
        }
        if slips(Mistake::PacedByLeadersAlone) {
            return !led;
        }
        if slips(Mistake::PacedByDoubtAlone) {
            return doubtful.next().is_none();
        }
        if slips(Mistake::PacedByDoubtInside) {
            return !led && !doubtful.any(|entry| entry.settings.place.group == group);
        }
        if slips(Mistake::PacedByAnyLeader) {
            let leads = |entry: &Entry| entry.settings.place.leader;
            return may && !nodes.clone().any(leads);
        }
        if beyond {
            return !led && doubtful.next().is_none();
        }
        may
    }

    /// The kinds beyond n, as a mistaken power-up leaves them.
    fn mistake_kinds_beyond(&self, new: &mut Session) {
        if self.rules.slips(Mistake::KindsBeyondKept) {
            let kinds = self.entries.map(|entry| entry.kind());
            new.entries = kinds.map(|kind| Entry::power_up(self.rules, kind));
        }
    }

    /// A value's range, where a mistaken host looks at it.
    fn mistake_range_at(&self, place: Mistake, command: Command) -> Result<(), Refusal> {
        let in_range = command.is_in_range(self.rules) || !self.rules.slips(place);
        require(in_range, Refusal::OffRange)
    }

    /// 17 for a node off the chain, before 10.
    fn mistake_kind_before_node(&self, target: Target, command: Command) -> Result<(), Refusal> {
        match target {
            Target::Node(node @ 1..=MOST_NODES) if self.rules.slips(Mistake::KindBeforeNode) => {
                let has = self.entries[usize::from(node - 1)].has(command);
                require(has, Refusal::KindLacks)
            }
            _ => Ok(()),
        }
    }

    /// Whether a mistaken host refuses a command with 17.
    fn slipped_lack(&self, lacked: bool, target: Target, command: Command) -> bool {
        let slips = |mistake| self.rules.slips(mistake);
        let reached = self.may_be_written(target).into_iter();
        let mut reached = reached.map(|index| &self.entries[index]);
        if slips(Mistake::WritersLackAlone) {
            let writes = matches!(command, Command::SynchInput | Command::ResetPosition);
            return lacked && !writes;
        }
        if slips(Mistake::DoubtfulLackSpared) {
            return reached.any(|entry| entry.knows(Setting::Place) && !entry.has(command));
        }
        if slips(Mistake::GroupsLackNothing) {
            return lacked && !target.is_group();
        }
        if slips(Mistake::LeadersLackAlone) {
            return reached.any(|entry| {
                let asked = entry.settings.place.leader || !target.is_group();
                asked && !entry.has(command)
            });
        }
        if slips(Mistake::AllMustLack) {
            let mut others = self.may_be_written(target).into_iter();
            return lacked && !others.any(|index| self.entries[index].has(command));
        }
        if slips(Mistake::SharedBytesTaken) {
            let shared = [Command::SynchOutput.byte(), 0x24].contains(&command.byte());
            return lacked && !shared;
        }
        if slips(Mistake::MixedGroupLacks) {
            let kinds: Vec<Kind> = reached.map(Entry::kind).collect();
            return lacked || Kind::ALL.iter().all(|kind| kinds.contains(kind));
        }
        if slips(Mistake::EmptyGroupLacks) {
            return lacked || reached.next().is_none() && command.owner() == Some(Kind::Drive);
        }
        if slips(Mistake::WholeChainLacks) {
            let mut chain = self.entries[..usize::from(self.n)].iter();
            return chain.any(|entry| !entry.has(command));
        }
        lacked
    }
}

/// The Set Address by which the walk gives a node its number.
fn walk_command(node: u8) -> Command {
    Command::SetAddress(Place::member(node, DEFAULT_GROUP))
}

/// Whether a command's addresses, where its data has any, are of their range.
fn has_place_in_range(command: Command) -> bool {
    match command {
        Command::SetAddress(place) => {
            Target::Node(place.address).is_in_range() && Target::Group(place.group).is_in_range()
        }
        _ => true,
    }
}

/// The packet of a command, at the start of the lent buffer. An address, a place
/// or a value that is not of its range is an "argument off its range", 6, and that
/// comes before 5.
pub fn build(
    rules: Rules,
    to: Target,
    command: Command,
    buffer: &mut [u8],
) -> Result<usize, Refusal> {
    let data = command.data();
    if rules.slips(Mistake::RoomBeforeRange) {
        require(OVERHEAD + data.len() <= buffer.len(), Refusal::NoRoom)?;
    }
    let to_any = rules.slips(Mistake::AnyAddressBuilt);
    require(to_any || to.is_in_range(), Refusal::OffRange)?;
    let of_any = rules.slips(Mistake::AnyPlaceBuilt);
    require(of_any || has_place_in_range(command), Refusal::OffRange)?;
    require(command.is_in_range(rules), Refusal::OffRange)?;
    packet::build(rules, buffer, to.address(), command.nibble(), &data)
}
