//! The program `import`: a sheet in, its packets out, back to back.

use crate::rules::Rules;
use crate::sheet::{self, Fault};

/// What goes to standard output, or the one line that a refusal is told by.
pub fn run(rules: Rules, sheet: &[u8]) -> Result<Vec<u8>, String> {
    let packets = sheet::packets(rules, sheet).map_err(complaint)?;
    Ok(packets.concat())
}

/// What a person is told of a sheet that is refused.
pub fn complaint(fault: Fault) -> String {
    match fault {
        Fault::TooLong => "the sheet is longer than 64 KiB".to_string(),
        Fault::Line(line) => format!("line {line}: not a HEX line"),
    }
}
