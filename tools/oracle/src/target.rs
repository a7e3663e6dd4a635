//! Whom a command is for: a node or a group. The session, its record and the
//! history of an exchange speak of it.

/// Whom a command is for. The walk's Set Address is for the node that it
/// gives its number, although it travels to 0x00.
#[derive(Clone, Copy, Debug, PartialEq, Eq)]
pub enum Target {
    Node(u8),
    Group(u8),
}

impl Target {
    /// The address byte of a ready session's packet.
    pub fn address(self) -> u8 {
        match self {
            Target::Node(address) | Target::Group(address) => address,
        }
    }

    pub fn is_group(self) -> bool {
        matches!(self, Target::Group(_))
    }

    /// "Addresses 0x00 to 0x7F are individual, 0x80 to 0xFF are groups."
    pub fn is_in_range(self) -> bool {
        self.is_group() == (self.address() >= 0x80)
    }
}
