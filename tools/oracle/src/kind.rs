//! The kinds of node: "The next table has LS-173AP drives on the same chain ..
//! Each node gets a kind, told to the host at power-up" (request 6).

/// What a node is, which says how it reads a command and which settings it has.
#[derive(Clone, Copy, Debug, PartialEq, Eq)]
pub enum Kind {
    /// An LS-773: document 001 decides.
    Gate,
    /// An LS-173AP: document 000 decides.
    Drive,
}

impl Kind {
    pub const ALL: [Kind; 2] = [Kind::Gate, Kind::Drive];
}

/// The kinds of a chain of so many gates.
pub fn gates(count: usize) -> Vec<Kind> {
    vec![Kind::Gate; count]
}
