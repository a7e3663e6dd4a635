//! "Packets": status packets, their items and how they are read.

use crate::kind::Kind;
use crate::packet::sum;
use crate::refusal::{require, Refusal};
use crate::rules::{Mistake, Rules};

/// Byte counts of the items of Define Status in document 001, by mask bit:
/// inputs, analog 0, 1, 2, counter, device ID and version, captured inputs,
/// captured counter. They are sent in this order.
const GATE_ITEMS: [usize; 8] = [2, 1, 1, 1, 4, 2, 2, 4];

/// Those of document 000: position, A/D value, velocity, auxiliary status, home
/// position, device ID and version, position error; bit 7 stands for no item.
const DRIVE_ITEMS: [usize; 8] = [4, 1, 2, 1, 4, 2, 2, 0];

/// T, "the total of all item counts .., T being the larger" of both kinds'.
pub const T: usize = 17;

/// Bit 1: "the command just received had a wrong sum".
pub const MARK: u8 = 0x02;

/// How many item bytes a mask asks a node of this kind for.
pub fn item_bytes(kind: Kind, mask: u8) -> usize {
    counted(
        match kind {
            Kind::Gate => GATE_ITEMS,
            Kind::Drive => DRIVE_ITEMS,
        },
        mask,
    )
}

fn counted(items: [usize; 8], mask: u8) -> usize {
    let asked = items.iter().enumerate();
    asked
        .filter(|(bit, _)| mask >> bit & 1 == 1)
        .map(|(_, bytes)| bytes)
        .sum()
}

/// The status packet of a status byte and its items: both, then their sum.
pub fn seal(status: u8, items: &[u8]) -> Vec<u8> {
    let mut bytes = vec![status];
    bytes.extend_from_slice(items);
    bytes.push(sum(&bytes));
    bytes
}

/// Whether the last byte is the 8-bit sum of all bytes before it.
pub fn sum_is_right(bytes: &[u8]) -> bool {
    matches!(bytes.split_last(), Some((last, before)) if *last == sum(before))
}

/// Reading under a mask: too short, 1; too long, 3; wrong sum, 4. Yields the
/// status byte as received and the items.
pub fn read(rules: Rules, kind: Kind, mask: u8, bytes: &[u8]) -> Result<(u8, &[u8]), Refusal> {
    let whole = slipped_item_bytes(rules, kind, mask) + 2;
    require(bytes.len() >= whole, Refusal::Short)?;
    let right_length = bytes.len() == whole || rules.slips(Mistake::StatusLengthFree);
    require(right_length, Refusal::TooLong)?;
    let right_sum = sum_is_right(bytes) || rules.slips(Mistake::StatusSumFree);
    require(right_sum, Refusal::WrongSum)?;
    Ok((bytes[0], &bytes[1..bytes.len() - 1]))
}

// ---- Mistakes alone ----------------------------------------------------

/// The item bytes that a mistaken reader looks for in a drive's reply.
fn slipped_item_bytes(rules: Rules, kind: Kind, mask: u8) -> usize {
    let mut items = DRIVE_ITEMS;
    if rules.slips(Mistake::DriveItemsAsGates) {
        items = GATE_ITEMS;
    } else if rules.slips(Mistake::MaskBit7Item) {
        items[7] = 1;
    } else if rules.slips(Mistake::VelocityOf4Bytes) {
        items[2] = 4;
    }
    match kind {
        Kind::Gate => item_bytes(kind, mask),
        Kind::Drive => counted(items, mask),
    }
}
