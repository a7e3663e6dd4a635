//! Recordings: line `50`, which doesn't touch the session, either.

use crate::layout::{self, Cursor};
use crate::recording::{Capture, Line, Recording, Step, Walk};
use crate::refusal::{Refusal, DONE};
use crate::rules::{Mistake, Rules};

/// The most bytes, and the most times, of a capture.
pub const MOST_CAPTURED: usize = 0x0400;

/// `50 n KIND*n CAPTURE CAPTURE`, the command line first; None is `FF`.
pub fn read(rules: Rules, mut line: Cursor) -> Option<Recording> {
    let nodes = line.byte()?;
    let recording = Recording {
        nodes,
        kinds: line.kinds(nodes)?,
        commands: capture(&mut line)?,
        replies: capture(&mut line)?,
    };
    if !rules.slips(Mistake::RecordingLeftOver) {
        line.end()?;
    }
    Some(recording)
}

/// CAPTURE, `b(2) byte*b t(2) time(4)*t`: "b and t may differ (15)".
fn capture(line: &mut Cursor) -> Option<Capture> {
    let count = captured(line)?;
    let bytes = line.take(count)?.to_vec();
    let count = captured(line)?;
    let times = (0..count).map(|_| line.long()).collect::<Option<_>>()?;
    Some(Capture { bytes, times })
}

/// "b and t at most 0400 (1024), else `FF`."
fn captured(line: &mut Cursor) -> Option<usize> {
    line.wide::<2>().filter(|count| *count <= MOST_CAPTURED)
}

/// `NN` for a refusal, else `00 end count(2) STEP*count STATE`.
pub fn answer(rules: Rules, walked: &Result<Walk, Refusal>) -> Vec<u8> {
    let walk = match walked {
        Ok(walk) => walk,
        Err(refusal) => return vec![refusal.number()],
    };
    let mut answer = vec![DONE, u8::from(walk.foreign)];
    answer.extend(layout::wide::<2>(walk.steps.len()));
    let mut before = 0;
    for own in &walk.steps {
        answer.extend(step(rules, own, before));
        before += own.part.length;
    }
    answer.extend(layout::session(&walk.session));
    answer
}

/// STEP, `line start(2) length(2)`, behind so many bytes of both lines.
fn step(rules: Rules, step: &Step, before: usize) -> Vec<u8> {
    let part = step.part;
    let start = match rules.slips(Mistake::StartsOfBothLines) {
        true => before,
        false => part.start,
    };
    let length = match rules.slips(Mistake::LengthIsEnd) {
        true => part.start + part.length,
        false => part.length,
    };
    let line = match part.line {
        Line::Command => 0,
        Line::Reply => 1,
    };
    let (start, length) = (layout::wide::<2>(start), layout::wide::<2>(length));
    [&[line], &start[..], &length].concat()
}
