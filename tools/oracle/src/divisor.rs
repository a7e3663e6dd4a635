//! "Every node holds a divisor .. every command is sent at one, and a node hears
//! only commands at its own" (request 7): those that the manuals list under Set
//! Baud Rate.

use crate::kind::Kind;
use crate::rules::{Mistake, Rules};

/// "A setting that power-up makes 0x3F": 19,200 baud. The bench program sends every
/// line at it, and recordings are of commands sent at it.
pub const POWER_UP: u8 = 0x3F;

/// 9600, 19200, 57600, 115200, 125000, 312500, 625000 and 1250000 baud (001).
const OF_GATE: [u8; 8] = [0x81, 0x3F, 0x14, 0x0A, 0x27, 0x0F, 0x07, 0x03];

/// 9600, 19200, 57600 and 115200 baud (000).
const OF_DRIVE: [u8; 4] = [0x81, 0x3F, 0x14, 0x0A];

/// The divisors that the manual of a kind lists.
pub fn listed(kind: Kind) -> &'static [u8] {
    match kind {
        Kind::Gate => &OF_GATE,
        Kind::Drive => &OF_DRIVE,
    }
}

/// Whether a divisor is one of those "listed in the manual of every kind on the
/// chain". Without nodes it is the LS-773's list.
pub fn is_listed(rules: Rules, kinds: &[Kind], divisor: u8) -> bool {
    let lists = |kind: &Kind| listed(*kind).contains(&divisor);
    if rules.slips(Mistake::DriveListUnheeded) {
        return lists(&Kind::Gate);
    }
    if rules.slips(Mistake::NoNodesListNothing) && kinds.is_empty() {
        return false;
    }
    if rules.slips(Mistake::DrivesListAlways) {
        return lists(&Kind::Drive);
    }
    if rules.slips(Mistake::FirstKindListed) {
        return lists(kinds.first().unwrap_or(&Kind::Gate));
    }
    lists(&Kind::Gate) && kinds.iter().all(lists)
}

#[cfg(test)]
mod tests {
    use super::*;

    /// What every list has is listed for any chain; what one has alone, for chains
    /// of that kind; and nothing else is.
    #[test]
    fn lists_of_chains() {
        let listed_for = |kinds: &[Kind]| {
            let all = 0..=u8::MAX;
            let own = all.filter(|divisor| is_listed(Rules::RIGHT, kinds, *divisor));
            own.collect::<Vec<u8>>()
        };
        let eight = [0x03, 0x07, 0x0A, 0x0F, 0x14, 0x27, 0x3F, 0x81];
        let four = [0x0A, 0x14, 0x3F, 0x81];
        assert_eq!(listed_for(&[]), eight);
        assert_eq!(listed_for(&[Kind::Gate; 3]), eight);
        assert_eq!(listed_for(&[Kind::Drive]), four);
        assert_eq!(listed_for(&[Kind::Gate, Kind::Gate, Kind::Drive]), four);
    }
}
