//! The program `replay`: a recording as text in; out goes a line for each
//! packet, how the recording ended, and the host's record at its end.

pub mod text;
pub mod words;

use crate::command::Command;
use crate::hex;
use crate::kind::Kind;
use crate::recording::{self, Did, Line, Recording, Step, Walk};
use crate::rules::{Mistake, Rules};
use crate::session::Session;
use text::Fault;

/// What goes to standard output, or the one line that a refusal is told by.
pub fn run(rules: Rules, input: &[u8]) -> Result<Vec<u8>, String> {
    let recording = text::read(rules, input).map_err(complaint)?;
    let walk = recording::walk(rules, &recording)
        .map_err(|refusal| format!("refused {}", refusal.number()))?; // only by a mistake
    let mut lines: Vec<String> = walk
        .steps
        .iter()
        .map(|step| packet(rules, &recording, step, &walk.session))
        .collect();
    lines.extend(end(rules, &walk));
    lines.push(standing(rules, &walk.session));
    for node in 1..=walk.session.n {
        if let Ok(entry) = walk.session.look(node) {
            lines.push(words::entry(rules, node, entry));
        }
    }
    let ended = lines.into_iter().map(|line| line + "\n");
    Ok(ended.collect::<String>().into_bytes())
}

/// What a person is told of a text that is no recording.
fn complaint(fault: Fault) -> String {
    match fault {
        Fault::TooLong => "the recording is longer than 64 KiB".to_string(),
        Fault::NoCount => {
            "the first line is not a node count, 1 to 31, alone or with the kind of each node"
                .to_string()
        }
        Fault::NoRun(line) => format!("line {line}: not a run of bytes"),
        Fault::TimeFalls(line) => format!("line {line}: its time is less than the one before it"),
    }
}

/// "Time of its first byte, line, bytes; then, behind ` | `, what it says;
/// behind a second ` | `, what it did."
fn packet(rules: Rules, recording: &Recording, step: &Step, host: &Session) -> String {
    let bytes = recording.bytes(step.part);
    let time = match rules.slips(Mistake::TimeOfLastByte) {
        true => recording.last_time(step.part),
        false => recording.time(step.part),
    };
    let (mark, says) = match step.part.line {
        Line::Command => ('>', command(rules, bytes, &step.did, host)),
        Line::Reply => ('<', words::reply(rules, host.judge(bytes)).to_string()),
    };
    let bytes = hex::format(bytes);
    format!("{time} {mark} {bytes} | {says} | {}", did(rules, step))
}

/// "Named by the call that gives its bytes, if the host could have sent it"; else
/// by the kinds of the nodes.
fn command(rules: Rules, bytes: &[u8], did: &Did, host: &Session) -> String {
    match did {
        Did::Sent(command) => words::sent(rules, bytes, *command),
        Did::Closed => words::sent(rules, bytes, Command::HardReset),
        _ => {
            let nodes = host.entries.iter().take(usize::from(host.n));
            let kinds: Vec<Kind> = nodes.map(|entry| entry.kind()).collect();
            words::foreign(rules, bytes, &kinds)
        }
    }
}

/// What it did to the host and its record, behind the silence of the command
/// before.
fn did(rules: Rules, step: &Step) -> String {
    let own = match &step.did {
        Did::Sent(_) => "sent".to_string(),
        Did::Closed if rules.slips(Mistake::ResetIsJustSent) => "sent".to_string(),
        Did::Closed => "sent, the session closes, all in doubt".to_string(),
        Did::Foreign => "not the host's, the walk ends".to_string(),
        Did::Answered(change) => words::changes(rules, change),
        Did::Stray => "nobody waits for it".to_string(),
    };
    match &step.silence {
        Some(change) if !rules.slips(Mistake::SilenceUnsaid) => {
            format!(
                "silence before it: {}; {own}",
                words::changes(rules, change)
            )
        }
        _ => own,
    }
}

/// "After the last packet, unless a command ended the walk."
fn end(rules: Rules, walk: &Walk) -> Option<String> {
    if walk.foreign && !rules.slips(Mistake::EndAlwaysSaid) {
        return None;
    }
    let silence = match &walk.silence {
        Some(change) if !rules.slips(Mistake::LastSilenceUnsaid) => {
            format!(" | silence before it: {}", words::changes(rules, change))
        }
        _ => String::new(),
    };
    Some(format!("end of the recording{silence}"))
}

/// How many nodes, and whether they are ready.
fn standing(rules: Rules, host: &Session) -> String {
    let nodes = match host.n {
        1 if !rules.slips(Mistake::OneNodes) => "1 node".to_string(),
        n => format!("{n} nodes"),
    };
    if !host.is_open() && !rules.slips(Mistake::ClosedUnsaid) {
        format!("{nodes}, closed")
    } else if host.walks() {
        let given = host.walk + u8::from(rules.slips(Mistake::WalkAtNext));
        format!("{nodes}, walk at {given}")
    } else {
        format!("{nodes}, ready")
    }
}
