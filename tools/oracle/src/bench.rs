//! The bench program: a node count, then packets, as text; replies as text.

use crate::chain::{deliver, Delivery, MOST_NODES};
use crate::divisor::POWER_UP;
use crate::hex;
use crate::kind::Kind;
use crate::node::Node;
use crate::refusal::Refusal;
use crate::rules::{Mistake, Rules};
use crate::status::T;

/// The whole output for a whole input. "A bad count, or longer input, gives
/// one line "refused 6"."
pub fn run(rules: Rules, input: &[u8]) -> String {
    let mut answers = Vec::new();
    match Bench::start(rules, input) {
        Some((mut bench, packets)) => {
            for line in packets {
                answers.extend(bench.answer(line));
                if bench.stopped {
                    break;
                }
            }
        }
        None => answers.push(refused(Refusal::OffRange)),
    }
    answers.iter().map(|answer| format!("{answer}\n")).collect()
}

/// A bench at work: a chain of LS-773 nodes in power-up state, bench values 0.
pub struct Bench {
    rules: Rules,
    pub nodes: Vec<Node>,
    /// Only ever set by a mistake.
    stopped: bool,
}

impl Bench {
    pub fn new(rules: Rules, count: usize) -> Bench {
        Bench {
            rules,
            nodes: vec![Node::powered_up(rules, Kind::Gate); count],
            stopped: false,
        }
    }

    /// The bench of an input and its packet lines, unless it is refused.
    pub fn start(rules: Rules, input: &[u8]) -> Option<(Bench, Vec<&[u8]>)> {
        if input.len() > hex::MOST_INPUT {
            return None;
        }
        let mut lines = hex::lines(input);
        if rules.slips(Mistake::LastLineNeedsNewline) && !input.ends_with(b"\n") {
            lines.pop();
        }
        let count = count(rules, lines.first()?)?;
        Some((Bench::new(rules, count), lines.split_off(1)))
    }

    /// "The bench program sends every line at 0x3F" (request 7).
    fn divisor(&self) -> u8 {
        match self.nodes.first() {
            Some(node) if self.rules.slips(Mistake::BenchFollows) => node.settings.divisor,
            _ => POWER_UP,
        }
    }

    /// The answer to one packet line: the reply, "-", "collision" or
    /// "refused " and the number.
    pub fn answer(&mut self, line: &[u8]) -> Option<String> {
        if line.is_empty() && self.rules.slips(Mistake::EmptyLineSkipped) {
            return None;
        }
        let Some(bytes) = hex::parse(self.rules, line) else {
            self.stopped = self.rules.slips(Mistake::BadLineStops);
            return Some(refused(Refusal::OffRange));
        };
        let mut buffer = [0; T + 2];
        let at = self.divisor();
        Some(
            match deliver(self.rules, &mut self.nodes, at, &bytes, &mut buffer) {
                Ok(Delivery::Reply(length)) => hex::format(&buffer[..length]),
                Ok(Delivery::Silent) => "-".to_string(),
                Ok(Delivery::Collision) => "collision".to_string(),
                Err(refusal) => refused(refusal),
            },
        )
    }
}

fn refused(refusal: Refusal) -> String {
    format!("refused {}", refusal.number())
}

/// "The count is 1 to 31 without a leading zero."
pub fn count(rules: Rules, line: &[u8]) -> Option<usize> {
    let digits = match line {
        [b'0', rest @ ..] if rules.slips(Mistake::LeadingZeroTaken) => rest,
        _ => line,
    };
    let count = match digits {
        [ones @ b'1'..=b'9'] => usize::from(ones - b'0'),
        [tens @ b'1'..=b'9', ones @ b'0'..=b'9'] => {
            usize::from(tens - b'0') * 10 + usize::from(ones - b'0')
        }
        _ => return None,
    };
    Some(count).filter(|count| *count <= MOST_NODES)
}
