//! Lent buffers: what is written goes to the start, the rest stays.

use crate::refusal::{require, Refusal};
use crate::rules::{Mistake, Rules};

/// Writes the bytes and answers how many; 5 where they have no room.
pub fn write(rules: Rules, buffer: &mut [u8], bytes: &[u8]) -> Result<usize, Refusal> {
    require(bytes.len() <= buffer.len(), Refusal::NoRoom)?;
    let (start, rest) = buffer.split_at_mut(bytes.len());
    start.copy_from_slice(bytes);
    if rules.slips(Mistake::RestCleared) {
        rest.fill(0);
    }
    Ok(bytes.len())
}
