//! "The chain": delivering a packet to a lent table of node records.

use crate::command::Command;
use crate::kind::Kind;
use crate::node::Node;
use crate::packet::{frame, Packet, HEADER, OVERHEAD};
use crate::refusal::{require, Refusal};
use crate::rules::{Mistake, Rules};
use crate::status::T;

/// The longest chain.
pub const MOST_NODES: usize = 31;

/// What came back from a chain that took a packet.
#[derive(Clone, Copy, Debug, PartialEq, Eq)]
pub enum Delivery {
    Silent,
    /// One replier; its packet of this length stands at the buffer's start.
    Reply(usize),
    /// Two or more repliers: 13.
    Collision,
}

/// Who replies, found by going through the chain in order and leaving it at
/// the second replier.
enum Repliers {
    None,
    One(usize),
    Several(usize),
}

/// A packet on the line: "every command is sent at" a divisor (request 7).
struct Sent<'a> {
    at: u8,
    packet: Packet<'a>,
}

/// Delivers a packet that is sent at a divisor, which may be any. "For the chain 6
/// comes first, then 1, 2, 3 in reading order, then 5, tested for the actual reply
/// before any node acts."
pub fn deliver(
    rules: Rules,
    nodes: &mut [Node],
    at: u8,
    bytes: &[u8],
    buffer: &mut [u8],
) -> Result<Delivery, Refusal> {
    mistakes_before_table(rules, bytes)?;
    require(table_is_in_range(rules, nodes, at), Refusal::OffRange)?;
    mistakes_before_packet(rules, nodes, at, bytes, buffer)?;
    let packet = alone(rules, bytes)?;
    if rules.slips(Mistake::WrongSumRefused) {
        require(packet.intact, Refusal::WrongSum)?;
    }
    let sent = Sent { at, packet };
    let (answer, reply) = answer(rules, nodes, &sent);
    let room = buffer.len() >= room_asked_for(rules, &reply);
    if !room {
        mistakes_without_room(rules, &reply, buffer);
    }
    if rules.slips(Mistake::ActsThenRefuses) {
        act(rules, nodes, &sent);
        require(room, Refusal::NoRoom)?;
    } else {
        require(room, Refusal::NoRoom)?;
        act_unless_mistaken(rules, nodes, &sent, answer);
    }
    put(rules, &reply, buffer);
    Ok(answer)
}

/// The one packet that the bytes are, its sum right or not. Reading accepts
/// what follows a packet; "the chain and bench program then refuse left-over
/// bytes with 3 themselves" (request 2), whatever the sum.
fn alone(rules: Rules, bytes: &[u8]) -> Result<Packet<'_>, Refusal> {
    mistakes_before_frame(rules, bytes)?;
    let packet = frame(rules, bytes)?;
    let left_over = &bytes[packet.end..];
    if rules.slips(Mistake::SumBeforeLeftOver) && !left_over.is_empty() {
        require(packet.intact, Refusal::WrongSum)?;
    }
    let taken = rules.slips(Mistake::LeftOverTaken)
        || rules.slips(Mistake::LeftOverPacketTaken) && frame(rules, left_over).is_ok();
    require(left_over.is_empty() || taken, Refusal::TooLong)?;
    Ok(packet)
}

/// 6: "table length not 1 to 31, .. a lent node record with individual
/// address above 0x7F or group below 0x80", hearing or not.
fn table_is_in_range(rules: Rules, nodes: &[Node], at: u8) -> bool {
    let most = MOST_NODES + usize::from(rules.slips(Mistake::TableOf32));
    let all = !rules.slips(Mistake::DeafRecordsUnchecked);
    (1..=most).contains(&nodes.len())
        && (0..nodes.len())
            .filter(|index| all || hears(rules, nodes, *index, at))
            .all(|index| record_is_in_range(&nodes[index]))
}

/// An individual address and a group are never taken for each other.
fn record_is_in_range(node: &Node) -> bool {
    node.address() <= 0x7F && node.group() >= 0x80
}

/// "A node hears only commands at its own" divisor (request 7), and of those
/// "exactly if it is addressed, is first, or the node before it is addressed".
fn hears(rules: Rules, nodes: &[Node], index: usize, at: u8) -> bool {
    let own = nodes[index].settings.divisor == at;
    is_reached(rules, nodes, index) && slipped_divisor(rules, nodes, index, at, own)
}

fn is_reached(rules: Rules, nodes: &[Node], index: usize) -> bool {
    nodes[index].addressed
        || index == 0 && !rules.slips(Mistake::FirstMustBeAddressed)
        || index > 0 && nodes[index - 1].addressed
        || index > 0 && rules.slips(Mistake::EveryoneHears)
}

/// "A hearing node acts once if the address byte is its individual address
/// or its group."
fn acts(rules: Rules, nodes: &[Node], index: usize, sent: &Sent) -> bool {
    let (node, packet) = (&nodes[index], &sent.packet);
    let follows = node.settings.place.leader || !rules.slips(Mistake::LeadersAlone);
    hears(rules, nodes, index, sent.at)
        && (packet.address == node.address() || packet.address == node.group() && follows)
}

/// "It replies if the address is its individual one, or it is leader of that
/// group, and the command isn't an intact Hard Reset of count 0."
fn replies(rules: Rules, nodes: &[Node], index: usize, sent: &Sent) -> bool {
    let (node, packet) = (&nodes[index], &sent.packet);
    let speaks = node.settings.place.leader || rules.slips(Mistake::MembersReply);
    let answers = packet.address == node.address() || packet.address == node.group() && speaks;
    let heard = hears(rules, nodes, index, sent.at);
    heard && answers && !goes_unanswered(rules, node.kind(), packet)
}

/// Whether no node of this kind answers such a packet: an intact Hard Reset of
/// count 0.
fn goes_unanswered(rules: Rules, kind: Kind, packet: &Packet) -> bool {
    let command = Command::decode(kind, packet.command_byte, packet.data);
    let acted_on = command.filter(|command| command.is_in_range(rules));
    if acted_on.is_none() && mistaken_silence(rules, command) {
        return true;
    }
    if matches!(command, Some(Command::SetBaudRate(_))) && rules.slips(Mistake::PaceUnanswered) {
        return packet.intact;
    }
    command == Some(Command::HardReset)
        && (packet.intact || rules.slips(Mistake::DamagedResetSilent))
        && !rules.slips(Mistake::ResetReplies)
}

/// "The chain is searched in order and left at the second replier."
fn repliers(rules: Rules, nodes: &[Node], sent: &Sent) -> Repliers {
    let mut found = Repliers::None;
    for index in (0..nodes.len()).filter(|index| replies(rules, nodes, *index, sent)) {
        match found {
            Repliers::None => found = Repliers::One(index),
            Repliers::One(first) => return Repliers::Several(first),
            Repliers::Several(_) => unreachable!("the search is left at the second replier"),
        }
    }
    found
}

/// What the chain will answer, and the bytes of a single reply.
fn answer(rules: Rules, nodes: &[Node], sent: &Sent) -> (Delivery, Vec<u8>) {
    match repliers(rules, nodes, sent) {
        Repliers::None => (Delivery::Silent, Vec::new()),
        Repliers::Several(_) if !rules.slips(Mistake::FirstReplierAnswers) => {
            (Delivery::Collision, Vec::new())
        }
        Repliers::One(index) | Repliers::Several(index) => {
            let reply = nodes[index].reply(rules, &sent.packet);
            (Delivery::Reply(reply.len()), reply)
        }
    }
}

/// "Who hears is fixed before the packet acts. .. Places are those before
/// the packet acts."
fn act(rules: Rules, nodes: &mut [Node], sent: &Sent) {
    let before = nodes.to_vec();
    for index in 0..nodes.len() {
        let acting = if rules.slips(Mistake::HearsAsItActs) {
            acts(rules, nodes, index, sent)
        } else {
            acts(rules, &before, index, sent)
        };
        if acting {
            nodes[index] = nodes[index].after(rules, &sent.packet);
        }
    }
}

fn act_unless_mistaken(rules: Rules, nodes: &mut [Node], sent: &Sent, answer: Delivery) {
    let withheld = answer == Delivery::Collision && rules.slips(Mistake::CollisionChangesNothing);
    if !withheld {
        act(rules, nodes, sent);
    }
}

/// The room that is asked for: that of the actual reply, but for a mistaken
/// chain.
fn room_asked_for(rules: Rules, reply: &[u8]) -> usize {
    if rules.slips(Mistake::RoomForAny) {
        return T + 2;
    }
    let last = usize::from(rules.slips(Mistake::NoRoomForSum));
    reply.len().saturating_sub(last)
}

/// The reply goes to the start of the lent buffer, the rest stays. Only a
/// mistaken chain has less room by now, and cuts the reply.
fn put(rules: Rules, reply: &[u8], buffer: &mut [u8]) {
    fill(reply, buffer);
    if rules.slips(Mistake::SumWrittenTwice) {
        if let (Some(sum), Some(behind)) = (reply.last(), buffer.get_mut(reply.len())) {
            *behind = *sum;
        }
    }
}

/// Writes bytes as far as there is room.
fn fill(bytes: &[u8], buffer: &mut [u8]) {
    for (place, byte) in buffer.iter_mut().zip(bytes) {
        *place = *byte;
    }
}

// ---- Mistakes alone ----------------------------------------------------

/// Whether a node hears what is sent at a divisor, its own or not, with the mistakes
/// in it.
fn slipped_divisor(rules: Rules, nodes: &[Node], index: usize, at: u8, own: bool) -> bool {
    if rules.slips(Mistake::DivisorUnheeded) {
        return true;
    }
    if rules.slips(Mistake::DivisorCutsChain) {
        let mut before = nodes[..index].iter();
        return own && before.all(|node| node.settings.divisor == at);
    }
    own
}

/// Whether a mistaken node keeps silent where it doesn't act: on an other, or on a
/// value off its range.
fn mistaken_silence(rules: Rules, command: Option<Command>) -> bool {
    rules.slips(match command {
        None => Mistake::OthersSilent,
        Some(_) => Mistake::OffRangeSilent,
    })
}

/// What a mistaken chain leaves of a reply that has no room.
fn mistakes_without_room(rules: Rules, reply: &[u8], buffer: &mut [u8]) {
    if rules.slips(Mistake::RefusedFills) {
        fill(reply, buffer);
    }
    if rules.slips(Mistake::RefusedBegins) {
        fill(&reply[..1], buffer);
    }
}

/// What a mistaken chain looks at before its table.
fn mistakes_before_table(rules: Rules, bytes: &[u8]) -> Result<(), Refusal> {
    if rules.slips(Mistake::FrameBeforeTable) {
        alone(rules, bytes)?;
    }
    if rules.slips(Mistake::LeftOverBeforeTable) {
        let alone = frame(rules, bytes).map_or(true, |packet| packet.end == bytes.len());
        require(alone, Refusal::TooLong)?;
    }
    Ok(())
}

/// The room that a mistaken chain asks for before it knows its packet.
fn mistakes_before_packet(
    rules: Rules,
    nodes: &[Node],
    at: u8,
    bytes: &[u8],
    buffer: &[u8],
) -> Result<(), Refusal> {
    if rules.slips(Mistake::RoomBeforeFrame) {
        require(!buffer.is_empty(), Refusal::NoRoom)?;
    }
    if rules.slips(Mistake::RoomBeforeLeftOver) {
        let packet = frame(rules, bytes)?;
        let (_, reply) = answer(rules, nodes, &Sent { at, packet });
        require(reply.len() <= buffer.len(), Refusal::NoRoom)?;
    }
    Ok(())
}

/// The length that a mistaken chain holds to the count before it reads.
fn mistakes_before_frame(rules: Rules, bytes: &[u8]) -> Result<(), Refusal> {
    let Some(command_byte) = bytes.get(2) else {
        return Ok(());
    };
    let whole = OVERHEAD + usize::from(command_byte >> 4);
    if rules.slips(Mistake::LeftOverBeforeHeader) {
        require(bytes.len() <= whole, Refusal::TooLong)?;
    }
    if rules.slips(Mistake::ShortGives3) {
        require(bytes[0] != HEADER || bytes.len() >= whole, Refusal::TooLong)?;
    }
    Ok(())
}
