//! Request 3, both lines of a recording: "walk them packet by packet", as the
//! host itself would have gone, had it sent these commands and been told of
//! these replies.

mod host;
mod parts;

use crate::command::Command;
use crate::kind::Kind;
use crate::record::Entry;
use crate::refusal::{require, Refusal};
use crate::rules::{Mistake, Rules};
use crate::session::Session;
use host::Host;
use parts::in_order;

/// "A packet begins with a capture's first byte or after a gap of 2 ms or
/// more."
pub const GAP: u32 = 2;

/// One of the two lines that are captured.
#[derive(Clone, Copy, Debug, PartialEq, Eq)]
pub enum Line {
    Command,
    Reply,
}

/// What is captured of one line: bytes, and "a 32-bit millisecond time for each
/// byte".
#[derive(Clone, Debug, Default, PartialEq, Eq)]
pub struct Capture {
    pub bytes: Vec<u8>,
    pub times: Vec<u32>,
}

/// "The node count is given, and the recording begins at power-up", at which the
/// kinds are told (request 6).
#[derive(Clone, Debug, Default, PartialEq, Eq)]
pub struct Recording {
    pub nodes: u8,
    pub kinds: Vec<Kind>,
    pub commands: Capture,
    pub replies: Capture,
}

/// A packet's own bytes: so many, from a start on, of its line's capture.
#[derive(Clone, Copy, Debug, PartialEq, Eq)]
pub struct Part {
    pub line: Line,
    pub start: usize,
    pub length: usize,
}

impl Recording {
    pub fn capture(&self, line: Line) -> &Capture {
        match line {
            Line::Command => &self.commands,
            Line::Reply => &self.replies,
        }
    }

    pub fn bytes(&self, part: Part) -> &[u8] {
        &self.capture(part.line).bytes[part.start..part.start + part.length]
    }

    /// When a packet starts.
    pub fn time(&self, part: Part) -> u32 {
        self.capture(part.line).times[part.start]
    }

    /// When its last byte came.
    pub fn last_time(&self, part: Part) -> u32 {
        self.capture(part.line).times[part.start + part.length - 1]
    }
}

/// The record of nodes 1 to n, before something and after it.
#[derive(Clone, Debug, PartialEq, Eq)]
pub struct Change {
    pub before: Vec<Entry>,
    pub after: Vec<Entry>,
}

/// What a packet did to the host.
#[derive(Clone, Debug, PartialEq, Eq)]
pub enum Did {
    /// A command that the host sends.
    Sent(Command),
    /// A Hard Reset that the host sends.
    Closed,
    /// "A command the host couldn't have sent ends the walk and says so."
    Foreign,
    /// A reply that a command waited for.
    Answered(Change),
    /// "A reply that no command waits for is shown without effect."
    Stray,
}

/// "Each step hands back that packet's own bytes."
#[derive(Clone, Debug, PartialEq, Eq)]
pub struct Step {
    pub part: Part,
    /// What it changes that the command before has had no reply.
    pub silence: Option<Change>,
    pub did: Did,
}

/// "A whole walk gives the host's record at its end."
#[derive(Clone, Debug, PartialEq, Eq)]
pub struct Walk {
    pub steps: Vec<Step>,
    /// Whether a command that the host couldn't have sent ended it.
    pub foreign: bool,
    /// What it changes that a command still waits at the end of the recording.
    pub silence: Option<Change>,
    pub session: Session,
}

/// A whole recording, or 6, 15, 16 in this order, before any packet is looked
/// at.
pub fn walk(rules: Rules, recording: &Recording) -> Result<Walk, Refusal> {
    let mut host = Host::new(rules);
    check(rules, recording, &mut host.session)?;
    let mut steps = Vec::new();
    let mut foreign = false;
    for part in in_order(rules, recording) {
        let step = match foreign {
            true => without_effect(part),
            false => host.take(part, recording.bytes(part)),
        };
        foreign |= ends(rules, &step.did);
        steps.push(step);
        if foreign && !rules.slips(Mistake::RestHandedBack) {
            break;
        }
    }
    let silence = match foreign {
        true => None,
        false => host.end(),
    };
    steps.retain(|step| is_handed_back(rules, &step.did));
    Ok(Walk {
        steps,
        foreign: foreign && !rules.slips(Mistake::ForeignUnsaid),
        silence,
        session: host.session,
    })
}

// ---- Refusals ----------------------------------------------------------

/// "6 for the node count, then 15 where times and bytes differ in number, then
/// 16 where a time is less than the one before in its capture."
fn check(rules: Rules, recording: &Recording, host: &mut Session) -> Result<(), Refusal> {
    if rules.slips(Mistake::CountsBeforeNodes) {
        check_counts(rules, recording)?;
    }
    if rules.slips(Mistake::TimesBeforeNodes) {
        check_times(rules, recording)?;
    }
    host.power_up(recording.nodes, &recording.kinds)?;
    if rules.slips(Mistake::TimesBeforeCounts) {
        check_times(rules, recording)?;
    }
    if rules.slips(Mistake::CaptureByCapture) {
        counts_agree(&recording.commands)?;
        times_rise(rules, &recording.commands)?;
    }
    check_counts(rules, recording)?;
    check_times(rules, recording)
}

fn check_counts(rules: Rules, recording: &Recording) -> Result<(), Refusal> {
    if !rules.slips(Mistake::CountsOfRepliesAlone) {
        counts_agree(&recording.commands)?;
    }
    if !rules.slips(Mistake::CountsOfCommandsAlone) {
        counts_agree(&recording.replies)?;
    }
    Ok(())
}

fn check_times(rules: Rules, recording: &Recording) -> Result<(), Refusal> {
    if !rules.slips(Mistake::TimesOfRepliesAlone) {
        times_rise(rules, &recording.commands)?;
    }
    if !rules.slips(Mistake::TimesOfCommandsAlone) {
        times_rise(rules, &recording.replies)?;
    }
    Ok(())
}

fn counts_agree(capture: &Capture) -> Result<(), Refusal> {
    let agree = capture.bytes.len() == capture.times.len();
    require(agree, Refusal::CountsDiffer)
}

fn times_rise(rules: Rules, capture: &Capture) -> Result<(), Refusal> {
    let mut neighbours = capture.times.windows(2);
    let rise = neighbours.all(|pair| !falls(rules, pair[0], pair[1]));
    require(rise, Refusal::TimeFalls)
}

/// Whether a time is less than the one before it. Times don't wrap.
pub fn falls(rules: Rules, before: u32, time: u32) -> bool {
    if rules.slips(Mistake::TimesWrap) {
        return time.wrapping_sub(before) as i32 <= -1;
    }
    if rules.slips(Mistake::TimesSigned) {
        return (time as i32) < before as i32;
    }
    if rules.slips(Mistake::TimesOf16Bits) {
        return (time as u16) < before as u16;
    }
    time < before || rules.slips(Mistake::EqualTimesFall) && time == before
}

// ---- Mistakes alone ----------------------------------------------------

/// Whether the walk ends with a packet that did this.
fn ends(rules: Rules, did: &Did) -> bool {
    match did {
        Did::Foreign => !rules.slips(Mistake::ForeignPassedOver),
        Did::Stray => rules.slips(Mistake::StrayEnds),
        _ => false,
    }
}

/// Whether a packet that did this is handed back.
fn is_handed_back(rules: Rules, did: &Did) -> bool {
    match did {
        Did::Foreign => !rules.slips(Mistake::ForeignKeptBack),
        Did::Stray => !rules.slips(Mistake::StrayKeptBack),
        _ => true,
    }
}

fn without_effect(part: Part) -> Step {
    Step {
        part,
        silence: None,
        did: Did::Stray,
    }
}
