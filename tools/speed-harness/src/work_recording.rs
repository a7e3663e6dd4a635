//! The recordings that are timed: what is heard of a show, from power-up on.

use oracle::chain::{deliver, Delivery};
use oracle::command::{Command, Held};
use oracle::demand3::Heard;
use oracle::kind::{gates, Kind};
use oracle::make_recordings::laid_out;
use oracle::node::Node;
use oracle::prng::Prng;
use oracle::recording::Recording;
use oracle::refusal::Refusal;
use oracle::rules::Rules;
use oracle::session::Session;
use oracle::settings::Setting;
use oracle::target::Target;

use crate::plain::{DIVISOR, MOST_REPLY};

/// The longest packet.
const MOST_PACKET: usize = 19;

/// So many of a hundred commands are lost, and so many of a hundred replies; and
/// so many replies come with a byte changed.
const LOST: usize = 2;
const CHANGED: usize = 1;

/// A recording with at most so many KiB in both captures together, whose
/// commands the host sends and whose replies the nodes give: the walk, every
/// node into one of four groups, then the mix of a show, mostly to one node.
pub fn recording(nodes: usize, size: usize, seed: u64) -> Recording {
    let mut show = Show::new(nodes as u8, seed);
    let room = size * 1024 - MOST_PACKET - MOST_REPLY;
    while show.host.walks() && show.bytes <= room {
        show.exchange(|host, _, packet| match host.ask_is_due() {
            true => host.ask(DIVISOR, packet),
            false => host.next(DIVISOR, packet),
        });
    }
    let mut node = 1;
    while show.bytes <= room {
        if node > nodes as u8 {
            show.exchange(mixed);
            continue;
        }
        show.exchange(|host, _, packet| {
            host.regroup(DIVISOR, node, group(node), leads(node), packet)
        });
        // Once more where it is in doubt: else no further node may lead.
        let entry = &show.host.entries[usize::from(node - 1)];
        node += u8::from(entry.knows(Setting::Place));
    }
    laid_out(&mut show.prng, &gates(nodes), &show.heard)
}

/// A call of the host, with its packet.
type Sent = Result<usize, Refusal>;

struct Show {
    prng: Prng,
    host: Session,
    chain: Vec<Node>,
    heard: Vec<Heard>,
    bytes: usize,
}

impl Show {
    fn new(nodes: u8, seed: u64) -> Show {
        let mut host = Session::fresh(Rules::RIGHT);
        let kinds = gates(usize::from(nodes));
        host.power_up(nodes, &kinds).expect("1 to 31 nodes");
        Show {
            prng: Prng::new(seed),
            host,
            chain: vec![Node::powered_up(Rules::RIGHT, Kind::Gate); usize::from(nodes)],
            heard: Vec::new(),
            bytes: 0,
        }
    }

    /// A command, and its reply or silence.
    fn exchange(&mut self, call: impl FnOnce(&mut Session, &mut Prng, &mut [u8]) -> Sent) {
        let mut packet = [0; MOST_PACKET];
        let length = call(&mut self.host, &mut self.prng, &mut packet).expect("it is due");
        self.bytes += length;
        self.heard.push(Heard::Command(packet[..length].to_vec()));
        match self.reply_to(&packet[..length]) {
            Some(reply) => {
                self.host.report(&reply).expect("a command waits");
                self.bytes += reply.len();
                self.heard.push(Heard::Reply(reply));
            }
            None => self.host.silence().expect("a command waits"),
        }
    }

    /// What comes back over the line.
    fn reply_to(&mut self, packet: &[u8]) -> Option<Vec<u8>> {
        let mut reply = [0; MOST_REPLY];
        // Not in the walk, in which the host would ask after it for ever.
        if !self.host.walks() && self.prng.percent(LOST) {
            return None;
        }
        let length = match deliver(Rules::RIGHT, &mut self.chain, DIVISOR, packet, &mut reply) {
            Ok(Delivery::Reply(length)) => length,
            _ => return None,
        };
        if self.prng.percent(LOST) {
            return None;
        }
        if self.prng.percent(CHANGED) {
            let place = self.prng.below(length);
            reply[place] = self.prng.other_than(reply[place]);
        }
        Some(reply[..length].to_vec())
    }
}

/// One of four groups.
fn group(number: u8) -> u8 {
    0x80 + number % 4
}

/// The first four nodes lead them, to the end: what is sent to a group is
/// answered as often then as at the beginning.
fn leads(node: u8) -> bool {
    node <= 4
}

/// Three of four to one node, the rest to groups, and now and then a node that
/// doesn't lead into another group.
fn mixed(host: &mut Session, prng: &mut Prng, packet: &mut [u8]) -> Sent {
    let node = prng.between(1, host.n);
    let data = [prng.byte(), prng.byte(), prng.byte(), prng.byte()];
    let pwm = [data[2], data[3]];
    let outputs = u16::from_le_bytes([data[0], data[1]]);
    let (to, all) = (Target::Node(node), Target::Group(group(prng.byte())));
    let (to, command) = match prng.below(100) {
        0..=12 => (to, Command::SetOutputs(outputs)),
        13..=23 => (to, Command::SetPwm(pwm)),
        24..=34 => (to, Command::SetSynchOutput(Held { outputs, pwm })),
        35..=38 => (to, Command::SetTimerMode(data[0])),
        // With other masks replies would be longer at the end than at the beginning.
        39..=40 => (to, Command::DefineStatus(0x00)),
        41..=48 => (to, Command::Nop),
        49..=73 => (to, Command::ReadStatus(data[0])),
        74..=83 => (all, Command::SynchOutput),
        84..=89 => (all, Command::SynchInput),
        90..=94 => (all, Command::SetOutputs(outputs)),
        95..=97 => (all, Command::Nop),
        _ if leads(node) => (to, Command::Nop),
        _ => return host.regroup(DIVISOR, node, group(data[0]), false, packet),
    };
    host.command(DIVISOR, to, command, packet)
}
