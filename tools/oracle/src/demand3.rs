//! Demand 3 tried: a host session and a real chain over a faulty line.
//!
//! The premises are those of the acceptance conditions, as request 4 has them:
//! all nodes power up when the host is told so; a command, at the divisor that it is
//! sent at (request 7), goes out whole or with
//! one byte other than header and command byte changed, and each node by itself
//! hears it or misses it, and hears only what comes at its own; a reply comes whole, with one byte changed, or not at
//! all, always before the next command. After each closed exchange three things
//! are checked: what the host calls known is what the node holds; doubt is
//! exactly what the history of sent and answered says; no two nodes ever replied at
//! once; and nobody to an intact Set Baud Rate.
//!
//! What goes over both lines is heard along, so that recordings can be made of
//! it (request 3).

mod counts;
mod line;

use crate::chain::Delivery;
use crate::command::Command;
use crate::divisor::{listed, POWER_UP};
use crate::hex;
use crate::history::History;
use crate::kind::Kind;
use crate::make_packets::{any_command, drive_command, group, kinds, off_range_command};
use crate::node::Node;
use crate::prng::Prng;
use crate::refusal::{number_of, Refusal};
use crate::rules::Rules;
use crate::session::{Exchange, Outcome, Session, MOST_NODES};
use crate::settings::Setting;
use crate::status::T;
use crate::target::Target;
use counts::Closing;
pub use counts::Counts;
use line::{Arriving, Line};

/// What went wrong, and the story since the last power-up.
#[derive(Debug)]
pub struct Violation {
    pub what: String,
    pub story: Vec<String>,
}

impl std::fmt::Display for Violation {
    fn fmt(&self, out: &mut std::fmt::Formatter) -> std::fmt::Result {
        for line in &self.story {
            writeln!(out, "{line}")?;
        }
        write!(out, "VIOLATION: {}", self.what)
    }
}

/// So many steps from a seed: the counts, or the first violation.
pub fn run(rules: Rules, seed: u64, steps: usize) -> Result<Counts, Violation> {
    let mut world = World::new(rules, seed);
    world.line_of_many_speeds = true;
    for _ in 0..steps {
        world.counts.steps += 1;
        if let Err(what) = world.step() {
            return Err(Violation {
                what,
                story: world.story,
            });
        }
    }
    Ok(world.counts)
}

/// What a recorder at the host's end hears: a command as it is sent, a reply as
/// it comes.
#[derive(Clone, Debug, PartialEq, Eq)]
pub enum Heard {
    Command(Vec<u8>),
    Reply(Vec<u8>),
}

/// What is heard from a power-up to the next, and the host at its end, in which
/// an exchange may be open.
#[derive(Clone, Debug)]
pub struct Story {
    pub heard: Vec<Heard>,
    pub host: Session,
}

impl Story {
    /// The kinds that the host was told.
    pub fn kinds(&self) -> Vec<Kind> {
        let entries = &self.host.entries[..usize::from(self.host.n)];
        entries.iter().map(|entry| entry.kind()).collect()
    }
}

/// The stories of so many steps from a seed, in which demand 3 holds, every command
/// sent at 0x3F: so recordings are.
pub fn stories(seed: u64, steps: usize) -> Vec<Story> {
    let mut world = World::new(Rules::RIGHT, seed);
    for _ in 0..steps {
        world.step().expect("demand 3 holds");
    }
    world.end_story();
    world.stories
}

type Step = Result<(), String>;

/// Host, chain, line and history.
struct World {
    rules: Rules,
    prng: Prng,
    host: Session,
    chain: Vec<Node>,
    /// What is on its way to the host while an exchange is open.
    reply: Vec<u8>,
    /// Which nodes missed the command that was sent last.
    missed: Vec<bool>,
    line: Line,
    /// Whether commands are sent at other divisors than 0x3F; whether they are since
    /// the last power-up.
    line_of_many_speeds: bool,
    paced: bool,
    /// Of a hundred commands so many are a Hard Reset, which ends the story.
    resets: usize,
    history: History,
    story: Vec<String>,
    heard: Vec<Heard>,
    stories: Vec<Story>,
    counts: Counts,
}

impl World {
    fn new(rules: Rules, seed: u64) -> World {
        World {
            rules,
            prng: Prng::new(seed),
            host: Session::fresh(rules),
            chain: Vec::new(),
            reply: Vec::new(),
            missed: Vec::new(),
            line: Line::default(),
            line_of_many_speeds: false,
            paced: false,
            resets: 0,
            history: History::new(rules),
            story: Vec::new(),
            heard: Vec::new(),
            stories: Vec::new(),
            counts: Counts::default(),
        }
    }

    /// What was heard since the last power-up, if there was one.
    fn end_story(&mut self) {
        let heard = std::mem::take(&mut self.heard);
        if self.counts.power_ups > 0 {
            let host = self.host.clone();
            self.stories.push(Story { heard, host });
        }
    }

    /// One step: a power-up, a command sent or a reply reported.
    fn step(&mut self) -> Step {
        if !self.host.is_open() || self.prng.below(90) == 0 || self.gives_up() {
            return self.power_up();
        }
        if self.host.waits() {
            return self.report();
        }
        self.send()
    }

    /// "Where a Set Address never arrived, only a new power-up helps", after some
    /// asking.
    fn gives_up(&mut self) -> bool {
        self.host.ask_is_due() && self.prng.below(10) == 0
    }

    /// All nodes power up and the host is told; "demand 3 takes the kinds told as the
    /// nodes' own" (request 6).
    fn power_up(&mut self) -> Step {
        let n = if self.prng.percent(92) {
            self.prng.pick(&[1, 2, 3, 3, 4, 4])
        } else {
            self.prng.between(1, MOST_NODES)
        };
        self.end_story();
        let kinds = kinds(&mut self.prng, usize::from(n));
        let nodes = kinds.iter().map(|kind| Node::powered_up(self.rules, *kind));
        self.chain = nodes.collect();
        self.line = Line::any(&mut self.prng);
        self.resets = self.prng.pick(&[0, 0, 0, 20]);
        self.paced = self.line_of_many_speeds && self.prng.percent(45);
        self.story = vec![format!("power-up of {n}: {kinds:?}")];
        self.history = History::new(self.rules);
        self.counts.power_ups += 1;
        self.expect_number(0, |host| host.power_up(n, &kinds).map(|()| 0))?;
        self.check()?;
        if self.prng.percent(10) {
            self.story.push("a late reply nobody waits for".to_string());
            self.heard.push(Heard::Reply(vec![0, 0]));
            self.expect_number(8, |host| host.report(&[0, 0]).map(|()| 0))?;
        }
        Ok(())
    }

    /// Calls the host, which must answer with this number.
    fn expect_number(
        &mut self,
        number: u8,
        call: impl FnOnce(&mut Session) -> Result<usize, Refusal>,
    ) -> Step {
        let got = number_of(&call(&mut self.host));
        if got == number {
            Ok(())
        } else {
            Err(format!("the host gave {got} where {number} is due"))
        }
    }
}

/// Commands.
impl World {
    fn send(&mut self) -> Step {
        let mut buffer = [0; 19];
        let before = self.host.clone();
        let (call, at, sent) = self.call_host(&mut buffer);
        let length = match sent {
            Ok(length) => length,
            Err(refusal) => {
                self.story
                    .push(format!("{call} at {at:02X}: {}", refusal.number()));
                self.counts.refused += 1;
                return self.unchanged(&before);
            }
        };
        self.counts.sent += 1;
        self.story.push(format!(
            "{call} at {at:02X}: {}",
            hex::format(&buffer[..length])
        ));
        self.heard.push(Heard::Command(buffer[..length].to_vec()));
        let mut paces = false;
        if let Exchange::Waiting {
            target, command, ..
        } = self.host.exchange
        {
            self.history.send(target, command, before.walks());
            paces = matches!(command, Command::SetBaudRate(_));
        }
        let intact = self.carry(at, &buffer[..length])?;
        if paces && intact && !self.reply.is_empty() {
            return Err("an intact Set Baud Rate was replied to".to_string());
        }
        if !self.host.waits() && !self.reply.is_empty() {
            // To a Hard Reset that was changed on its way.
            self.heard.push(Heard::Reply(self.reply.clone()));
        }
        Ok(())
    }

    fn unchanged(&self, before: &Session) -> Step {
        if self.host == *before {
            Ok(())
        } else {
            Err("a refused call changed the record".to_string())
        }
    }

    /// A call that makes sense; its name, the divisor that it is to be sent at, and its
    /// result.
    fn call_host(&mut self, buffer: &mut [u8]) -> (String, u8, Result<usize, Refusal>) {
        if self.host.walks() {
            return self.walk_on(buffer);
        }
        if self.paced && self.prng.percent(40) {
            return self.pace_or_ask(buffer);
        }
        if self.prng.percent(30) {
            let node = self.own_node();
            let group = self.group_for(self.chain[usize::from(node - 1)].kind());
            let leader = self.prng.percent(60);
            let at = self.divisor_of(Target::Node(node));
            let name = format!("regroup {node} to {group:02X}, leader {leader}");
            return (name, at, self.host.regroup(at, node, group, leader, buffer));
        }
        let target = self.target();
        let command = self.ready_command(target);
        let at = self.divisor_of(target);
        let name = format!("{command:?} to {target:?}");
        (name, at, self.host.command(at, target, command, buffer))
    }

    /// "Next" or "ask", mostly the one that is due.
    fn walk_on(&mut self, buffer: &mut [u8]) -> (String, u8, Result<usize, Refusal>) {
        let at = match self.paced && self.prng.percent(3) {
            true => self.any_divisor(),
            false => POWER_UP,
        };
        if self.host.ask_is_due() == self.prng.percent(90) {
            ("ask".to_string(), at, self.host.ask(at, buffer))
        } else {
            ("next".to_string(), at, self.host.next(at, buffer))
        }
    }

    /// Set Baud Rate, or a Nop that finds out what came of one. A place in doubt, or a
    /// leader, is told its place again first, mostly, since 19 comes of them.
    fn pace_or_ask(&mut self, buffer: &mut [u8]) -> (String, u8, Result<usize, Refusal>) {
        if self.prng.percent(50) {
            let target = match self.prng.percent(85) {
                true => Target::Node(self.own_node()),
                false => Target::Group(self.group()),
            };
            let at = self.divisor_of(target);
            let name = format!("Nop to {target:?}");
            return (
                name,
                at,
                self.host.command(at, target, Command::Nop, buffer),
            );
        }
        if let (Some(node), true) = (self.hindering_node(), self.prng.percent(75)) {
            let group = self.group_for(self.chain[usize::from(node - 1)].kind());
            let at = self.divisor_of(Target::Node(node));
            let name = format!("regroup {node} to {group:02X}, leader false");
            return (name, at, self.host.regroup(at, node, group, false, buffer));
        }
        let (group, divisor) = (self.group(), self.any_divisor());
        let at = self.divisor_of(Target::Group(group));
        let name = format!("Set Baud Rate {divisor:02X} to {group:02X}");
        let sent = self.host.set_baud_rate(at, group, divisor, buffer);
        (name, at, sent)
    }

    /// A node whose place is in doubt, or that leads.
    fn hindering_node(&mut self) -> Option<u8> {
        let entries = &self.host.entries[..self.chain.len()];
        let nodes = (1..)
            .zip(entries)
            .filter(|(_, entry)| !entry.knows(Setting::Place) || entry.settings.place.leader);
        let nodes: Vec<u8> = nodes.map(|(node, _)| node).collect();
        (!nodes.is_empty()).then(|| self.prng.pick(&nodes))
    }

    /// A divisor to send at: mostly one that those have who are meant, sometimes one
    /// that is recorded of them or any.
    fn divisor_of(&mut self, target: Target) -> u8 {
        if !self.paced {
            return POWER_UP;
        }
        let meant = (0..self.chain.len()).filter(|index| match target {
            Target::Node(node) => index + 1 == usize::from(node),
            Target::Group(group) => self.chain[*index].group() == group,
        });
        let meant: Vec<usize> = meant.collect();
        if meant.is_empty() || self.prng.percent(6) {
            return self.any_divisor();
        }
        let index = self.prng.pick(&meant);
        match self.prng.percent(85) {
            true => self.chain[index].settings.divisor,
            false => self.host.entries[index].settings.divisor,
        }
    }

    /// One of the few that stories keep to, one that only gates list, or none's.
    fn any_divisor(&mut self) -> u8 {
        match self.prng.below(12) {
            0 => self.prng.byte(),
            1 => self.prng.pick(listed(Kind::Gate)),
            _ => self.prng.pick(&[POWER_UP, 0x0A, 0x0A, 0x14]),
        }
    }

    fn own_node(&mut self) -> u8 {
        self.prng.between(1, self.chain.len() as u8)
    }

    fn target(&mut self) -> Target {
        match self.prng.percent(50) {
            true => Target::Node(self.own_node()),
            false => Target::Group(self.group()),
        }
    }

    /// A group, mostly one that a node leads or is in, so that leaders and members
    /// meet.
    fn group(&mut self) -> u8 {
        let leaders = self.chain.iter().filter(|node| node.settings.place.leader);
        let led: Vec<u8> = leaders.map(Node::group).collect();
        match self.prng.below(10) {
            0..=5 if !led.is_empty() => self.prng.pick(&led),
            0..=7 => {
                let node = self.own_node();
                self.chain[usize::from(node - 1)].group()
            }
            _ => group(&mut self.prng),
        }
    }

    /// A group for a node of this kind to be in, mostly one that has no other kind.
    fn group_for(&mut self, kind: Kind) -> u8 {
        let group = self.group();
        let mut members = self.chain.iter().filter(|node| node.group() == group);
        if members.all(|node| node.kind() == kind) || self.prng.percent(15) {
            return group;
        }
        match kind {
            Kind::Gate => self.prng.pick(&[0x80, 0x81]),
            Kind::Drive => self.prng.pick(&[0x90, 0x91]),
        }
    }

    /// A command, mostly one that those have who are meant.
    fn ready_command(&mut self, target: Target) -> Command {
        if self.prng.percent(self.resets) {
            return Command::HardReset;
        }
        if self.prng.percent(20) {
            let byte = self.prng.pick(&[0x12, 0x12, 0x13, 0x0E]);
            return any_command(&mut self.prng, byte);
        }
        let meant = self.chain.iter().filter(|node| match target {
            Target::Node(own) => node.address() == own,
            Target::Group(group) => node.group() == group,
        });
        let mut meant: Vec<Kind> = meant.map(Node::kind).collect();
        if meant.is_empty() || self.prng.percent(8) {
            meant = Kind::ALL.to_vec();
        }
        match self.prng.pick(&meant) {
            Kind::Drive if self.prng.percent(5) => off_range_command(&mut self.prng),
            Kind::Drive => drive_command(&mut self.prng),
            Kind::Gate => {
                let bytes = [0x05, 0x05, 0x47, 0x47, 0x24, 0x26, 0x18, 0x0C];
                let byte = self.prng.pick(&bytes);
                any_command(&mut self.prng, byte)
            }
        }
    }

    /// The line takes the command to the nodes; whether it arrives as it was sent.
    fn carry(&mut self, at: u8, packet: &[u8]) -> Result<bool, String> {
        self.reply.clear();
        let arriving = self.line.carry(&mut self.prng, packet, self.chain.len());
        self.tell(packet, &arriving);
        let mut buffer = [0; T + 2];
        match arriving.deliver(self.rules, &mut self.chain, at, &mut buffer) {
            Ok(Delivery::Reply(length)) => self.reply = buffer[..length].to_vec(),
            Ok(Delivery::Silent) => {}
            Ok(Delivery::Collision) => return Err("several nodes replied".to_string()),
            Err(refusal) => return Err(format!("the chain gave {}", refusal.number())),
        }
        self.missed = arriving.missed;
        Ok(arriving.bytes == packet)
    }

    /// What the line does to a command, told and counted.
    fn tell(&mut self, packet: &[u8], arriving: &Arriving) {
        if arriving.bytes != packet {
            self.counts.changed += 1;
            self.story
                .push(format!("  it arrives as {}", hex::format(&arriving.bytes)));
        }
        for (node, missed) in (1..).zip(&arriving.missed) {
            if *missed {
                self.counts.missed += 1;
                self.story.push(format!("  node {node} misses it"));
            }
        }
    }
}

/// Replies.
impl World {
    fn report(&mut self) -> Step {
        if self.prng.percent(4) {
            let before = self.host.clone();
            self.expect_number(7, |host| host.next(POWER_UP, &mut [0; 19]))?;
            return self.unchanged(&before);
        }
        let reply = std::mem::take(&mut self.reply);
        let reply = self.line.carry_back(&mut self.prng, reply);
        self.count_met(&reply);
        let walked = self.host.walks();
        if reply.is_empty() {
            self.story.push("  silence".to_string());
            self.counts.silent += 1;
            self.expect_number(0, |host| host.silence().map(|()| 0))?;
        } else {
            self.story
                .push(format!("  answered {}", hex::format(&reply)));
            self.counts.answered += 1;
            self.heard.push(Heard::Reply(reply.clone()));
            self.expect_number(0, |host| host.report(&reply).map(|()| 0))?;
        }
        self.history.answer(&reply);
        self.counts.ready += usize::from(walked && !self.host.walks());
        self.check()
    }

    fn count_met(&mut self, reply: &[u8]) {
        let closing = Closing {
            host: &self.host,
            chain: &self.chain,
            missed: &self.missed,
            clear: self.host.judge(reply) == Outcome::Clear,
        };
        for met in closing.met() {
            self.counts.met[met as usize] += 1;
        }
    }
}

/// Checks.
impl World {
    /// "With no exchange open and no Hard Reset sent since, each setting the
    /// host calls known is what the node holds", and doubt is exact.
    fn check(&mut self) -> Step {
        if !self.host.is_open() || self.host.waits() {
            return Ok(());
        }
        for node in 1..=self.chain.len() as u8 {
            let kind = self.chain[usize::from(node - 1)].kind();
            for setting in Setting::all(kind) {
                self.check_setting(node, *setting)?;
            }
        }
        Ok(())
    }

    fn check_setting(&mut self, node: u8, setting: Setting) -> Step {
        let index = usize::from(node - 1);
        let entry = &self.host.entries[index];
        let (shown, held) = (&entry.settings, &self.chain[index].settings);
        let known = entry.knows(setting);
        self.counts.checks += 1;
        self.counts.doubts += usize::from(!known);
        if known && !shown.agree(setting, held) {
            return Err(format!(
                "node {node}: {setting:?} is called known but differs: {shown:?} recorded, {held:?} held"
            ));
        }
        if known == self.history.in_doubt(node, setting) {
            return Err(format!(
                "node {node}: {setting:?} is called {}, the history says otherwise",
                if known { "known" } else { "in doubt" }
            ));
        }
        Ok(())
    }
}
