//! The host's calls that send a command, by name; and which of them gives some
//! bytes, which request 3 asks of each command in a recording. "In a recording" Set
//! Baud Rate "ends the walk" (request 7): all that is found is sent at 0x3F.

use crate::command::{Command, SET_BAUD_RATE};
use crate::divisor::POWER_UP;
use crate::packet::{MOST_PACKET, OVERHEAD};
use crate::refusal::Refusal;
use crate::rules::{Mistake, Rules};
use crate::session::{Exchange, Session, MOST_NODES};
use crate::target::Target;

/// A call that sends a command.
#[derive(Clone, Copy, Debug, PartialEq, Eq)]
pub enum Call {
    Next,
    Ask,
    Order(Target, Command),
    Regroup { node: u8, group: u8, leader: bool },
    SetBaudRate { group: u8, divisor: u8 },
}

impl Call {
    pub fn make(self, host: &mut Session, at: u8, buffer: &mut [u8]) -> Result<usize, Refusal> {
        match self {
            Call::Next => host.next(at, buffer),
            Call::Ask => host.ask(at, buffer),
            Call::Order(target, command) => host.command(at, target, command, buffer),
            Call::Regroup {
                node,
                group,
                leader,
            } => host.regroup(at, node, group, leader, buffer),
            Call::SetBaudRate { group, divisor } => host.set_baud_rate(at, group, divisor, buffer),
        }
    }
}

/// A command that was sent, and the session then.
#[derive(Clone, Debug, PartialEq, Eq)]
pub struct Sent {
    pub command: Command,
    pub session: Session,
}

/// The session once it has sent these bytes. None for "a command the host
/// couldn't have sent": no call, in the session as it is, gives these bytes with
/// number 0.
pub fn after_sending(host: &Session, bytes: &[u8]) -> Option<Sent> {
    let calls = calls(host.rules, bytes).into_iter();
    let mut sent = calls.filter_map(|call| after_call(host, call, bytes));
    sent.next()
}

/// The session after a call that gives these bytes with number 0.
fn after_call(host: &Session, call: Call, bytes: &[u8]) -> Option<Sent> {
    let mut tried = mistaken_before(host, call);
    let mut buffer = [0; MOST_PACKET];
    let length = call.make(&mut tried, POWER_UP, &mut buffer).ok()?;
    if !is_same(host.rules, &buffer[..length], bytes) {
        return None;
    }
    let command = match (call, tried.exchange) {
        (Call::Order(_, command), _) | (_, Exchange::Waiting { command, .. }) => command,
        (_, Exchange::Idle) => return None, // which no call leaves
    };
    mistaken_after(host, call, &mut tried);
    Some(Sent {
        command,
        session: tried,
    })
}

/// The calls that may give these bytes. "Next" and "ask" take no arguments; of
/// the others a packet says all: address byte, command and data. With other
/// arguments they give other bytes, or none. Where two commands share a byte, the
/// nodes that it may reach decide (17); to a group that nobody may be in both give
/// it, and nothing differs.
fn calls(rules: Rules, bytes: &[u8]) -> Vec<Call> {
    let mut calls = vec![Call::Next];
    if !rules.slips(Mistake::AskForeign) {
        calls.push(Call::Ask);
    }
    let [_, address, command_byte, data @ .., _] = own_bytes(rules, bytes) else {
        return calls;
    };
    for command in readings(rules, *command_byte, data) {
        let targets = [Target::Node(*address), Target::Group(*address)];
        calls.extend(targets.map(|target| Call::Order(target, command)));
    }
    if let ([divisor], SET_BAUD_RATE, true) =
        (data, *command_byte, rules.slips(Mistake::PaceRecorded))
    {
        calls.push(Call::SetBaudRate {
            group: *address,
            divisor: *divisor,
        });
    }
    if let [_, second] = data {
        calls.extend([false, true].map(|leader| Call::Regroup {
            node: *address,
            group: second | 0x80,
            leader,
        }));
    }
    calls
}

// ---- Mistakes alone ----------------------------------------------------

/// The commands that these may be; a mistaken reader knows one for each byte.
fn readings(rules: Rules, command_byte: u8, data: &[u8]) -> Vec<Command> {
    let mut commands = Command::readings(command_byte, data);
    if rules.slips(Mistake::SharedByteIsGates) {
        commands.truncate(1);
    }
    if rules.slips(Mistake::SharedByteIsDrives) {
        commands.drain(..commands.len().saturating_sub(1));
    }
    commands
}

/// All of the bytes; a mistaken reader leaves what stands behind the packet.
fn own_bytes(rules: Rules, bytes: &[u8]) -> &[u8] {
    match bytes.get(2) {
        Some(byte) if rules.slips(Mistake::LeftOverUnheeded) => {
            &bytes[..bytes.len().min(OVERHEAD + usize::from(byte >> 4))]
        }
        _ => bytes,
    }
}

/// Whether the bytes that a call gives are those of the recording.
fn is_same(rules: Rules, given: &[u8], bytes: &[u8]) -> bool {
    if rules.slips(Mistake::LeftOverUnheeded) {
        return bytes.starts_with(given);
    }
    if rules.slips(Mistake::WalkAddressFree) && given.starts_with(&[0xAA, 0x00, 0x21]) {
        return bytes.len() == given.len() && bytes.starts_with(&given[..3]);
    }
    let compared = given.len() - usize::from(rules.slips(Mistake::SumUnheeded));
    bytes.len() == given.len() && bytes[..compared] == given[..compared]
}

/// The session that a call is tried on, as it is; a mistaken host passes over
/// what would refuse the call.
fn mistaken_before(host: &Session, call: Call) -> Session {
    let (rules, mut tried) = (host.rules, host.clone());
    let ordered = !matches!(call, Call::Next | Call::Ask);
    if rules.slips(Mistake::WalkUnheeded) && ordered {
        tried.walk = tried.n;
    }
    if rules.slips(Mistake::OffChainTaken) && !host.walks() {
        (tried.n, tried.walk) = (MOST_NODES, MOST_NODES);
    }
    tried.open |= rules.slips(Mistake::ResetGoesOn);
    tried
}

/// What a mistaken host has changed for its call is put back.
fn mistaken_after(host: &Session, call: Call, tried: &mut Session) {
    let rules = host.rules;
    if rules.slips(Mistake::WalkUnheeded) || rules.slips(Mistake::OffChainTaken) {
        (tried.n, tried.walk) = (host.n, host.walk);
    }
    let asks = call == Call::Ask && rules.slips(Mistake::AskIsNop);
    let off_chain = tried.open && !tried.is_open();
    if asks || off_chain {
        tried.exchange = Exchange::Idle;
    }
}
