//! The line from the host to the nodes. "Nodes don't hear alike: each separately
//! hears a whole command or misses it; a changed command is still changed alike
//! for those that hear it" (request 4).

use crate::chain::{deliver, Delivery};
use crate::command::Place;
use crate::make_packets::damage;
use crate::node::Node;
use crate::prng::Prng;
use crate::refusal::Refusal;
use crate::rules::{Mistake, Rules};

/// How faulty the line is, out of a hundred.
#[derive(Clone, Copy, Default)]
pub struct Line {
    /// So many commands are changed; so many replies are lost, and as many are
    /// changed.
    pub faults: usize,
    /// So many commands each node misses.
    pub misses: usize,
}

/// A command on its way: what reaches those that hear it, and for each node
/// whether it misses it.
pub struct Arriving {
    pub bytes: Vec<u8>,
    pub missed: Vec<bool>,
}

impl Line {
    pub fn any(prng: &mut Prng) -> Line {
        Line {
            faults: prng.pick(&[0, 2, 6, 15]),
            misses: prng.pick(&[0, 3, 12, 25]),
        }
    }

    pub fn carry(self, prng: &mut Prng, packet: &[u8], nodes: usize) -> Arriving {
        let bytes = match prng.percent(self.faults) {
            true => damage(prng, packet.to_vec()),
            false => packet.to_vec(),
        };
        let missed = (0..nodes).map(|_| prng.percent(self.misses)).collect();
        Arriving { bytes, missed }
    }

    /// The reply as it comes to the host, empty where it is lost.
    pub fn carry_back(self, prng: &mut Prng, mut reply: Vec<u8>) -> Vec<u8> {
        let fault = prng.below(100);
        if reply.is_empty() || fault < self.faults {
            return Vec::new();
        }
        if fault < 2 * self.faults {
            let place = prng.below(reply.len());
            reply[place] = prng.other_than(reply[place]);
        }
        reply
    }
}

impl Arriving {
    /// The chain's own delivery, at a divisor, to those that hear. One that misses the command
    /// stands in the chain as if it were for somebody else.
    pub fn deliver(
        &self,
        rules: Rules,
        chain: &mut [Node],
        at: u8,
        buffer: &mut [u8],
    ) -> Result<Delivery, Refusal> {
        let before = chain.to_vec();
        let missing = || (0..before.len()).filter(|index| self.missed[*index]);
        if !rules.slips(Mistake::MissedReplies) {
            missing().for_each(|index| chain[index].settings.place = elsewhere(self.bytes[1]));
        }
        let delivery = deliver(rules, chain, at, &self.bytes, buffer);
        missing().for_each(|index| chain[index] = before[index]);
        delivery
    }
}

/// A place that a packet's address byte means neither by address nor by group.
fn elsewhere(address: u8) -> Place {
    let other = address ^ 1;
    Place::member(other & 0x7F, other | 0x80)
}
