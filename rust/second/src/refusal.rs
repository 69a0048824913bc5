//! The refusals and their numbers (docs/RULES.md, section 13).

use std::error::Error;
use std::fmt;

/// Why a call was refused.
#[derive(Clone, Copy, Debug, PartialEq, Eq, Hash)]
#[repr(u8)]
pub enum Refusal {
    /// A site or partition is not in the layout, or a delivery goes from a site to itself.
    NotInLayout = 1,
    /// No session with this number has been opened.
    NoSession = 2,
    /// A value is not lawful, a reading is 2^47 or more, or a stamp is 2^63 or more.
    Unlawful = 3,
    /// A reading is below the server's present one.
    ReadingBehind = 4,
    /// The server holds as many versions as it can.
    TableFull = 5,
    /// Some other site has as many entries still to take as an outbox can hold.
    OutboxFull = 6,
    /// The clock rule answers early.
    Early = 7,
    /// The clock rule answers end, or no serial number is left.
    End = 8,
    /// No entry waits for the site that should take one.
    NothingWaits = 9,
    /// All sessions, or all seats for snapshots, are in use.
    NoneFree = 10,
    /// The ticket is not good.
    NotOpen = 11,
    /// A layout, a clock letter or a marks letter is outside the rules.
    BadLayout = 12,
    /// A command is shorter than its letter needs.
    ShortCommand = 13,
    /// A letter is none of the script's.
    UnknownLetter = 14,
    /// The first command does not make the group, or a later one does.
    LayoutMisplaced = 15,
    /// The buffer is too short for a line.
    ShortBuffer = 16,
}

impl Refusal {
    /// The refusal's number.
    pub const fn number(self) -> u8 {
        self as u8
    }
}

impl fmt::Display for Refusal {
    fn fmt(&self, f: &mut fmt::Formatter<'_>) -> fmt::Result {
        write!(f, "no {}", self.number())
    }
}

impl Error for Refusal {}
