//! "Numbers returned": the one table of numbers that every call answers with,
//! and those that requests 1, 3, 6 and 7 add.

/// A call was done; also the number of a chain that stayed silent.
pub const DONE: u8 = 0;

/// Several nodes replied. Not a refusal: the nodes keep what they did.
pub const COLLISION: u8 = 13;

macro_rules! refusals {
    ($($refusal:ident = $number:literal,)*) => {
        /// The other numbers, each a refusal that changes nothing.
        #[derive(Clone, Copy, Debug, PartialEq, Eq)]
        #[repr(u8)]
        pub enum Refusal {
            $($refusal = $number,)*
        }

        impl Refusal {
            pub const ALL: &'static [Refusal] = &[$(Refusal::$refusal),*];
        }
    };
}

refusals! {
    Short = 1,
    NoHeader = 2,
    TooLong = 3,
    WrongSum = 4,
    NoRoom = 5,
    OffRange = 6,
    ExchangeOpen = 7,
    NothingToReport = 8,
    NotDue = 9,
    NoSuchNode = 10,
    LeaderForbidden = 11,
    SessionClosed = 12,
    NotAHexLine = 14,
    CountsDiffer = 15,
    TimeFalls = 16,
    KindLacks = 17,
    Divisor = 18,
    Paced = 19,
}

impl Refusal {
    pub fn number(self) -> u8 {
        self as u8
    }
}

/// The number of a call's result: 0 when done, else the refusal's own.
pub fn number_of<T>(result: &Result<T, Refusal>) -> u8 {
    match result {
        Ok(_) => DONE,
        Err(refusal) => refusal.number(),
    }
}

/// Refuses unless the condition holds; keeps lists of checks readable.
pub fn require(condition: bool, refusal: Refusal) -> Result<(), Refusal> {
    if condition {
        Ok(())
    } else {
        Err(refusal)
    }
}
