//! The packets of a recording: cut by gaps, and in the order in which they
//! start.

use super::{Capture, Line, Part, Recording, GAP};
use crate::packet::{frame, OVERHEAD};
use crate::rules::{Mistake, Rules};

/// The packets "from whichever capture starts earlier; at equal times the
/// command comes first".
pub fn in_order(rules: Rules, recording: &Recording) -> Vec<Part> {
    let mut commands = parts(rules, recording, Line::Command)
        .into_iter()
        .peekable();
    let mut replies = parts(rules, recording, Line::Reply).into_iter().peekable();
    let mut ordered = Vec::new();
    loop {
        let command_comes = match (commands.peek(), replies.peek()) {
            (Some(command), Some(reply)) => comes_first(rules, recording, *command, *reply),
            (command, _) => command.is_some(),
        };
        let next = match command_comes {
            true => commands.next(),
            false => replies.next(),
        };
        match next {
            Some(part) => ordered.push(part),
            None => break,
        }
    }
    match rules.slips(Mistake::RepliesJoined) {
        true => joined(ordered),
        false => ordered,
    }
}

/// Whether a command comes before a reply.
fn comes_first(rules: Rules, recording: &Recording, command: Part, reply: Part) -> bool {
    let (at, reply_at) = match rules.slips(Mistake::OrderedByEnds) {
        true => (recording.last_time(command), recording.last_time(reply)),
        false => (recording.time(command), recording.time(reply)),
    };
    at < reply_at || at == reply_at && !rules.slips(Mistake::ReplyFirst)
}

/// The packets of one line, cut by gaps alone.
fn parts(rules: Rules, recording: &Recording, line: Line) -> Vec<Part> {
    let Capture { bytes, times } = recording.capture(line);
    let mut parts: Vec<Part> = Vec::new();
    // As many as there are of both, which only a mistake lets differ.
    for place in 0..bytes.len().min(times.len()) {
        match parts.last_mut() {
            Some(last) if !begins(rules, times, last.start, place) => last.length += 1,
            _ => parts.push(Part {
                line,
                start: place,
                length: 1,
            }),
        }
    }
    if line == Line::Command {
        parts = mistaken_commands(rules, bytes, parts);
    }
    parts
}

/// Whether a packet begins at a place that is not the capture's first: there is
/// a gap before it.
fn begins(rules: Rules, times: &[u32], start: usize, place: usize) -> bool {
    let before = match rules.slips(Mistake::GapFromStart) {
        true => times[start],
        false => times[place - 1],
    };
    let gap = match rules.slips(Mistake::TimesOf16Bits) {
        true => u32::from((times[place] as u16).wrapping_sub(before as u16)),
        false => times[place].wrapping_sub(before),
    };
    gap >= least_gap(rules)
}

fn least_gap(rules: Rules) -> u32 {
    if rules.slips(Mistake::GapOf1Parts) {
        1
    } else if rules.slips(Mistake::GapOf3Needed) {
        3
    } else {
        GAP
    }
}

// ---- Mistakes alone ----------------------------------------------------

/// Replies that follow each other, made one.
fn joined(parts: Vec<Part>) -> Vec<Part> {
    let mut joined: Vec<Part> = Vec::new();
    for part in parts {
        match joined.last_mut() {
            Some(last) if last.line == Line::Reply && part.line == Line::Reply => {
                last.length += part.length;
            }
            _ => joined.push(part),
        }
    }
    joined
}

/// Commands cut where packets end, too, or joined where a gap is within one.
fn mistaken_commands(rules: Rules, bytes: &[u8], parts: Vec<Part>) -> Vec<Part> {
    let mut cut: Vec<Part> = Vec::new();
    for mut part in parts {
        if rules.slips(Mistake::GapInCommandUnheeded) {
            match cut.last_mut() {
                Some(last) if frame(rules, &bytes[last.start..part.start]).is_err() => {
                    last.length += part.length;
                }
                _ => cut.push(part),
            }
            continue;
        }
        while rules.slips(Mistake::GapNotNeeded) && part.length > OVERHEAD {
            let own = &bytes[part.start..part.start + part.length];
            let end = match frame(rules, own) {
                Ok(packet) if packet.end < part.length => packet.end,
                _ => break,
            };
            cut.push(Part {
                length: end,
                ..part
            });
            part.start += end;
            part.length -= end;
        }
        cut.push(part);
    }
    cut
}
