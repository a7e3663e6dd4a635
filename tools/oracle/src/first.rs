//! The output of the program `first`: two nodes get their addresses, the
//! second one's outputs are set, and the host says what it knows of each.

use crate::chain::{deliver, Delivery};
use crate::command::Command;
use crate::divisor::POWER_UP;
use crate::hex;
use crate::kind::{gates, Kind};
use crate::node::Node;
use crate::refusal::Refusal;
use crate::rules::Rules;
use crate::session::Session;
use crate::settings::{Own, Setting};
use crate::status::T;
use crate::target::Target;

/// The whole output; None where a call is refused, as none is.
pub fn run(rules: Rules) -> Option<String> {
    let mut nodes = vec![Node::powered_up(rules, Kind::Gate); 2];
    let mut session = Session::fresh(rules);
    session.power_up(2, &gates(2)).ok()?;
    for _ in 0..2 {
        exchange(rules, &mut nodes, &mut session, |session, buffer| {
            session.next(POWER_UP, buffer)
        })
        .ok()?;
    }
    exchange(rules, &mut nodes, &mut session, |session, buffer| {
        session.command(POWER_UP, Target::Node(2), Command::SetOutputs(5), buffer)
    })
    .ok()?;
    [1, 2].iter().map(|node| line(&session, *node)).collect()
}

/// A call that sends, its packet on the chain, and what came back reported.
fn exchange(
    rules: Rules,
    nodes: &mut [Node],
    session: &mut Session,
    send: fn(&mut Session, &mut [u8]) -> Result<usize, Refusal>,
) -> Result<(), Refusal> {
    let mut packet = [0; 19];
    let length = send(session, &mut packet)?;
    let mut reply = [0; T + 2];
    match deliver(rules, nodes, POWER_UP, &packet[..length], &mut reply)? {
        Delivery::Reply(length) => session.report(&reply[..length]),
        Delivery::Silent | Delivery::Collision => session.silence(),
    }
}

/// A node's number, whether its outputs are known, and the outputs.
fn line(session: &Session, node: u8) -> Option<String> {
    let entry = session.look(node).ok()?;
    let Own::Gate(gate) = entry.settings.own else {
        return None;
    };
    let [low, high] = gate.outputs.to_le_bytes();
    let known = u8::from(entry.knows(Setting::Outputs));
    let bytes = hex::format(&[node, known, low, high]);
    Some(format!("node, known, outputs: {bytes}\n"))
}
