//! The host's calls of a story: most make sense where the session stands.

use super::Story;
use crate::command::{Command, COMMAND_BYTES, SET_BAUD_RATE};
use crate::divisor::POWER_UP;
use crate::kind::Kind;
use crate::layout;
use crate::make_packets::off_range_command;
use crate::make_packets::{any_command, divisor, drive_command, group, kinds};
use crate::record::{all_known, Entry};
use crate::rules::Rules;
use crate::session::{Exchange, Session, MOST_NODES};
use crate::settings::Setting;
use crate::status::{seal, MARK};
use crate::target::Target;

/// The host.
impl Story {
    pub fn host_line(&mut self) -> Vec<u8> {
        self.show = self.prng.percent(60);
        match self.prng.below(100) {
            0 => return self.hand_in(),
            1..=9 => return self.any_call(),
            _ => {}
        }
        let session = &self.model.session;
        if !session.is_open() {
            self.call_when_closed()
        } else if session.waits() {
            self.report()
        } else if session.ask_is_due() {
            self.walk_call(0x32)
        } else if session.walks() {
            self.walk_call(0x31)
        } else {
            self.ready_call()
        }
    }

    /// `31`, next, or `32`, ask: mostly at 0x3F, where nodes that have no address hear.
    fn walk_call(&mut self, call: u8) -> Vec<u8> {
        let room = self.room(if call == 0x31 { 6 } else { 4 });
        let at = match self.prng.percent(92) {
            true => POWER_UP,
            false => divisor(&mut self.prng),
        };
        vec![call, room, at]
    }

    /// A divisor to send at: mostly one that is recorded of a node.
    fn divisor(&mut self) -> u8 {
        let node = self.own_node();
        let recorded = self.model.session.entries[usize::from(node - 1)].settings;
        match self.prng.percent(75) {
            true => recorded.divisor,
            false => divisor(&mut self.prng),
        }
    }

    /// `39`: mostly a divisor that may be set, to a group that nobody leads.
    fn set_baud_rate(&mut self) -> Vec<u8> {
        let group = match self.prng.percent(50) {
            true => self.own_group(),
            false => group(&mut self.prng),
        };
        let (room, at) = (self.room(5), self.divisor());
        vec![0x39, room, at, group, divisor(&mut self.prng)]
    }

    /// Mostly a power-up: all else is refused.
    fn call_when_closed(&mut self) -> Vec<u8> {
        if self.prng.percent(50) {
            self.power_up()
        } else {
            self.any_call()
        }
    }

    fn power_up(&mut self) -> Vec<u8> {
        let n = match self.prng.below(100) {
            0..=3 => self.prng.pick(&[0, 32, 0xFF]),
            4..=9 => self.prng.between(1, MOST_NODES),
            _ => self.prng.between(1, 4),
        };
        let kinds = kinds(&mut self.prng, usize::from(n));
        [vec![0x30, n], layout::kinds(&kinds)].concat()
    }

    /// Any call at all, whether it makes sense or not.
    fn any_call(&mut self) -> Vec<u8> {
        match self.prng.below(10) {
            0 => self.power_up(),
            1 => self.walk_call(0x31),
            2 => self.walk_call(0x32),
            3 => self.command(),
            4 => self.regroup(),
            5 => self.report(),
            6 => self.misformed_call(),
            7 => self.set_baud_rate(),
            _ => self.far_fetched_call(),
        }
    }

    /// Calls at nodes and groups that are not there.
    fn far_fetched_call(&mut self) -> Vec<u8> {
        let far = self.prng.pick(&[0, 32, 40, 0x7F, 0xFF]);
        let low = self.prng.between(0x00, 0x7F);
        let at = match self.prng.percent(80) {
            true => POWER_UP,
            false => self.divisor(),
        };
        match self.prng.below(7) {
            6 => vec![0x39, self.room(5), at, low, divisor(&mut self.prng)],
            0 => vec![0x33, self.room(4), at, 0x00, far, 0x00, 0x0E],
            1 => vec![0x33, self.room(4), at, 0x01, low, 0x00, 0x0E],
            4..=5 => {
                let target = self.prng.pick(&[Target::Node(far), Target::Group(low)]);
                let command = match self.prng.percent(50) {
                    true => off_range_command(&mut self.prng),
                    false => drive_command(&mut self.prng),
                };
                self.order(target, command)
            }
            2 => vec![0x34, self.room(6), at, far, low, 0x01],
            _ => vec![0x34, self.room(6), at, far, 0x80, 0x01],
        }
    }

    /// Calls one byte too short or too long, with a bad flag, or of the other family.
    fn misformed_call(&mut self) -> Vec<u8> {
        let target = self.target();
        let mut line = match self.prng.below(8) {
            4 => return self.command_of_other_family(),
            5 => self.power_up(),
            6 => self.set_baud_rate(),
            7 => return self.order(target, Command::SetBaudRate(POWER_UP)),
            0 => self.walk_call(0x31),
            1 => vec![
                0x34,
                self.room(6),
                POWER_UP,
                1,
                0x80,
                self.prng.between(2, 9),
            ],
            2 => vec![0x33, self.room(6), POWER_UP, 0x00, 1, 0x00, 0x21, 1, 0xFF],
            _ => self.command(),
        };
        if self.prng.percent(50) {
            line.pop();
        } else {
            line.push(self.prng.byte());
        }
        line
    }

    fn ready_call(&mut self) -> Vec<u8> {
        match self.prng.below(100) {
            0..=1 => self.power_up(),
            2..=3 => self.walk_call(0x31),
            4..=5 => self.walk_call(0x32),
            6..=22 => self.regroup(),
            23..=30 => self.set_baud_rate(),
            31..=35 => {
                let node = self.own_node();
                self.order(Target::Node(node), Command::Nop)
            }
            _ => self.command(),
        }
    }

    /// A node of the chain.
    fn own_node(&mut self) -> u8 {
        let n = self.model.session.n.clamp(1, MOST_NODES);
        self.prng.between(1, n)
    }

    fn target(&mut self) -> Target {
        match self.prng.percent(55) {
            true => Target::Node(self.own_node()),
            false => Target::Group(self.own_group()),
        }
    }

    /// A group, mostly one that an entry leads or is in, so that leaders and
    /// members meet.
    fn own_group(&mut self) -> u8 {
        let node = self.own_node();
        let entries = &self.model.session.entries[..usize::from(node)];
        let own = entries[entries.len() - 1].settings.place.group;
        let leader = entries.iter().rfind(|entry| entry.settings.place.leader);
        let led = leader.map(|entry| entry.settings.place.group);
        match self.prng.below(10) {
            0..=4 => led.unwrap_or(own),
            5..=7 => own,
            _ => group(&mut self.prng),
        }
    }

    /// A command of the ready session; the Synch pair is common, Hard Reset
    /// is rare. Mostly one that those have who may be reached.
    fn command(&mut self) -> Vec<u8> {
        let target = self.target();
        let command = match self.prng.below(100) {
            0..=1 => Command::HardReset,
            2..=16 => {
                let byte = self.prng.pick(&[0x12, 0x13, 0x0E]);
                any_command(&mut self.prng, byte)
            }
            _ => match self.kind_meant(target) {
                Kind::Gate => {
                    let byte = self
                        .prng
                        .pick(&[0x05, 0x05, 0x47, 0x47, 0x24, 0x26, 0x18, 0x0C]);
                    any_command(&mut self.prng, byte)
                }
                Kind::Drive if self.prng.percent(16) => off_range_command(&mut self.prng),
                Kind::Drive => drive_command(&mut self.prng),
            },
        };
        self.order(target, command)
    }

    /// The kind of one that may be reached, most of the time.
    fn kind_meant(&mut self, target: Target) -> Kind {
        let nodes = usize::from(self.model.session.n.min(MOST_NODES));
        let entries = (1..).zip(&self.model.session.entries[..nodes]);
        let meant = entries.filter(|(node, entry)| match target {
            Target::Node(own) => *node == own,
            Target::Group(group) => entry.settings.place.group == group,
        });
        let meant: Vec<Kind> = meant.map(|(_, entry)| entry.kind()).collect();
        match meant.is_empty() || self.prng.percent(10) {
            true => self.prng.pick(&Kind::ALL),
            false => self.prng.pick(&meant),
        }
    }

    /// `33`.
    fn order(&mut self, target: Target, command: Command) -> Vec<u8> {
        let command = layout::command(command);
        let (room, at) = (self.room(2 + command.len()), self.divisor());
        let call = vec![0x33, room, at];
        [call, layout::target(target).to_vec(), command].concat()
    }

    /// A command whose FAMILY isn't its own, none at all, or has it otherwise.
    fn command_of_other_family(&mut self) -> Vec<u8> {
        let mut line = self.command();
        match self.prng.below(3) {
            0 => line[5] = self.prng.between(2, 0xFF),
            1 if line.len() > 7 => line[7] ^= 1 << self.prng.below(8),
            _ => line[5] ^= 1,
        }
        line
    }

    /// A group for a node to be in, mostly one that has no other kind.
    fn group_for(&mut self, node: u8) -> u8 {
        let group = self.own_group();
        let nodes = usize::from(self.model.session.n.min(MOST_NODES));
        let entries = &self.model.session.entries;
        let kind = entries[usize::from(node - 1)].kind();
        let mut members = entries[..nodes]
            .iter()
            .filter(|entry| entry.settings.place.group == group);
        if members.all(|entry| entry.kind() == kind) || self.prng.percent(15) {
            return group;
        }
        match kind {
            Kind::Gate => self.prng.pick(&[0x80, 0x81]),
            Kind::Drive => self.prng.pick(&[0x90, 0x91]),
        }
    }

    fn regroup(&mut self) -> Vec<u8> {
        let node = self.own_node();
        let group = self.group_for(node);
        let leader = u8::from(self.prng.percent(50));
        vec![0x34, self.room(6), self.divisor(), node, group, leader]
    }

    /// What came back: mostly a good and clear reply.
    fn report(&mut self) -> Vec<u8> {
        let status = self.prng.telling_byte();
        let (clear, marked) = (status & !MARK, status | MARK);
        let count = if self.prng.percent(60) {
            0
        } else {
            self.prng.below(18)
        };
        let items = self.prng.telling_bytes(count);
        let reply = match self.prng.below(100) {
            0..=17 => return vec![0x36],
            18..=74 => seal(clear, &items),
            75..=85 => seal(marked, &items),
            86..=91 => self.spoilt_reply(status, &items),
            _ => self.odd_reply(clear),
        };
        [vec![0x35], reply].concat()
    }

    fn spoilt_reply(&mut self, status: u8, items: &[u8]) -> Vec<u8> {
        let mut reply = seal(status, items);
        let place = self.prng.below(reply.len());
        reply[place] = self.prng.other_than(reply[place]);
        reply
    }

    /// Replies at the edges of 2 to T + 2 bytes, their sums right.
    fn odd_reply(&mut self, status: u8) -> Vec<u8> {
        match self.prng.below(6) {
            0 => Vec::new(),
            1 => vec![0x00],
            2 => seal(status, &self.prng.telling_bytes(16)),
            3 => seal(status, &self.prng.telling_bytes(17)),
            4 => seal(status, &self.prng.telling_bytes(18)),
            _ => seal(status, &self.prng.telling_bytes(40)),
        }
    }
}

/// Sessions handed in by hand.
impl Story {
    fn hand_in(&mut self) -> Vec<u8> {
        let mut session = if self.prng.percent(60) {
            self.model.session.clone()
        } else {
            self.made_up_session()
        };
        for _ in 0..self.prng.below(3) {
            self.twist(&mut session);
        }
        let mut line = [vec![0x38], layout::session(&session)].concat();
        if self.prng.percent(4) {
            self.misform_state(&mut line);
        }
        line
    }

    /// A KIND or a bit of `known` that is none, or a byte too few or too many. The
    /// last entry is mostly a gate's, and ends with what is known of it.
    fn misform_state(&mut self, line: &mut Vec<u8>) {
        let last = line.len() - 1;
        match self.prng.below(4) {
            0 => line[last] |= 0x80,
            1 => line[last - 15] = self.prng.between(1, 3),
            2 => drop(line.pop()),
            _ => line.push(self.prng.telling_byte()),
        }
    }

    /// A session that is ready, or walks, with a record of any kind.
    fn made_up_session(&mut self) -> Session {
        let mut session = Session::fresh(Rules::RIGHT);
        session.open = true;
        session.n = self.prng.between(0, 5);
        session.walk = if self.prng.percent(60) {
            session.n
        } else {
            self.prng.between(0, session.n)
        };
        let kinds = kinds(&mut self.prng, 6);
        for (entry, kind) in session.entries.iter_mut().zip(kinds) {
            *entry = Entry {
                settings: self.settings(kind),
                known: self.known(kind),
            };
        }
        session.exchange = self.exchange(session.n, session.walk);
        session
    }

    /// All known, or any.
    fn known(&mut self, kind: Kind) -> u16 {
        match self.prng.percent(60) {
            true => all_known(kind),
            false => self.any_known(kind),
        }
    }

    fn any_known(&mut self, kind: Kind) -> u16 {
        u16::from_le_bytes([self.prng.byte(), self.prng.byte()]) & all_known(kind)
    }

    /// An exchange, of a valid session or not.
    fn exchange(&mut self, n: u8, walk: u8) -> Exchange {
        let target = match self.prng.below(10) {
            0..=2 => Target::Node(walk.saturating_add(1)),
            3..=5 => Target::Node(self.prng.between(0, n.min(MOST_NODES) + 1)),
            6..=8 => Target::Group(group(&mut self.prng)),
            _ => return Exchange::Idle,
        };
        let command = match self.prng.below(10) {
            0 => off_range_command(&mut self.prng),
            1..=3 => drive_command(&mut self.prng),
            4 => any_command(&mut self.prng, SET_BAUD_RATE),
            _ => {
                let byte = self.prng.pick(&COMMAND_BYTES);
                any_command(&mut self.prng, byte)
            }
        };
        let paces = matches!(command, Command::SetBaudRate(_));
        // On a node it waits in no session: now and then a line says so.
        let target = match paces && self.prng.percent(85) {
            true => Target::Group(group(&mut self.prng)),
            false => target,
        };
        Exchange::Waiting {
            at: divisor(&mut self.prng),
            target,
            command,
        }
    }

    /// One thing about a session changed, to sense or nonsense.
    fn twist(&mut self, session: &mut Session) {
        let index = self.prng.below(6);
        let kind = session.entries[index].kind();
        match self.prng.below(10) {
            9 => session.entries[index].known ^= Setting::Divisor.bit(kind),
            0 => session.open = !session.open,
            1 => session.n = self.prng.pick(&[0, 1, 2, 3, 31, 32, 0xFF]),
            2 => session.walk = self.prng.pick(&[0, 1, 2, session.n, 31, 32, 0xFF]),
            3..=4 => session.exchange = self.exchange(session.n, session.walk),
            5 => session.entries[index].known ^= Setting::Place.bit(kind),
            6 => session.entries[index].known = self.any_known(kind),
            7 => session.entries[index].settings = self.settings(kind),
            _ => {
                let kind = self.prng.pick(&Kind::ALL);
                session.entries[index] = Entry {
                    settings: self.settings(kind),
                    known: self.known(kind),
                };
            }
        }
    }
}
