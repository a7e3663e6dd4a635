//! The program `export`: packets in, back to back, their sheet out.

use crate::hex;
use crate::refusal::Refusal;
use crate::rules::{Mistake, Rules};
use crate::sheet::{self, Misread};

/// What a person is told of too long a list.
const TOO_LONG: &str = "more than 64 KiB of packets";

/// What goes to standard output, or the one line that a refusal is told by.
/// How much is read is the program's own limit, and is tested first.
pub fn run(rules: Rules, list: &[u8]) -> Result<Vec<u8>, String> {
    let too_long = list.len() > hex::MOST_INPUT;
    if too_long && !rules.slips(Mistake::ListOf65537Looked) {
        return Err(TOO_LONG.to_string());
    }
    let sheet = sheet::sheet_of(rules, list).map_err(|misread| complaint(rules, misread))?;
    if too_long {
        return Err(TOO_LONG.to_string());
    }
    Ok(sheet)
}

/// What a person is told of a packet that doesn't read: unlike the call, the
/// program says which it is.
fn complaint(rules: Rules, misread: Misread) -> String {
    let why = match misread.refusal {
        Refusal::Short => "cut short",
        Refusal::NoHeader => "no header",
        Refusal::WrongSum => "wrong sum",
        _ => "too long", // which only a mistake says of a list
    };
    let number = misread.packet - usize::from(rules.slips(Mistake::PacketsFromZero));
    format!("packet {number}: {why}")
}
