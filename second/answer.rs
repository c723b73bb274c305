//! The answer numbers of document 01, "Answer numbers", and of document 02, Ask 2.

pub const IDLE: u8 = 0;
pub const ROOM: u8 = 1;
pub const PLACE: u8 = 2;
pub const SHORT: u8 = 3;
pub const NUMBER: u8 = 4;
pub const SUB_TYPE: u8 = 5;
pub const NO_MASK: u8 = 6;
pub const OTHER_ISSUE: u8 = 7;
pub const SYSTEM: u8 = 8;
pub const RESERVED: u8 = 9;
pub const SIZE: u8 = 10;
pub const NETWORK: u8 = 11;
pub const VALUE: u8 = 12;
/// "Changed mask" (document 02, Ask 2).
pub const CHANGED_MASK: u8 = 13;

/// How many of them there are.
pub const STOPS: usize = CHANGED_MASK as usize + 1;

/// Idle or a refusal: "each of 0 to 12 returns its number and the start asked
/// for (0 for the saved form)", and so does 13.
#[derive(Clone, Copy, Debug, PartialEq, Eq)]
pub struct Stop {
    pub number: u8,
    pub place: usize,
    /// Where the number is 3, how many bits were missing: "the needed bits less
    /// those left, always 1 or more" (document 02, Ask 7). Else 0.
    pub missing: usize,
}

impl Stop {
    /// A stop with any number but 3: nothing was missing.
    pub const fn plain(number: u8, place: usize) -> Self {
        Stop { number, place, missing: 0 }
    }
}

/// Why a reading stops, before its place is said beside it: bits are missing
/// with 3, and with 3 alone.
#[derive(Clone, Copy, Debug, PartialEq, Eq)]
pub enum Reason {
    /// Any number but 3.
    Plain(u8),
    /// 3, and how many bits were missing.
    Short(usize),
}

impl Reason {
    pub fn at(self, place: usize) -> Stop {
        match self {
            Reason::Plain(number) => Stop::plain(number, place),
            Reason::Short(missing) => Stop { number: SHORT, place, missing },
        }
    }
}

/// What reader and writer share never runs past an end, and so answers with a
/// number alone.
impl From<u8> for Reason {
    fn from(number: u8) -> Self {
        Reason::Plain(number)
    }
}
