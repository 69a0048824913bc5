//! Stamps and the two clock rules.

use std::error::Error;
use std::fmt;

use crate::foreign;

const COUNT_BITS: u32 = 16;

/// When something was written: a time of 47 bits, then a count among what has the same time.
///
/// Stamps are ordered by time first and then by count. A stamp is displayed as `time.count`.
///
/// ```
/// use price_store::Stamp;
///
/// let stamp = Stamp::new(100, 7).unwrap();
/// assert_eq!(stamp.to_string(), "100.7");
/// assert!(stamp < Stamp::new(101, 0).unwrap());
/// ```
#[derive(Clone, Copy, Debug, Default, PartialEq, Eq, PartialOrd, Ord, Hash)]
pub struct Stamp(u64);

impl Stamp {
    /// The least stamp, 0.0.
    pub const ZERO: Self = Self(0);
    /// The greatest stamp, 140737488355327.65535.
    pub const TOP: Self = Self((1 << 63) - 1);

    /// The stamp of this time and count, if the time is below 2^47.
    ///
    /// ```
    /// use price_store::Stamp;
    ///
    /// assert_eq!(Stamp::new((1 << 47) - 1, u16::MAX), Some(Stamp::TOP));
    /// assert_eq!(Stamp::new(1 << 47, 0), None);
    /// ```
    pub const fn new(time: u64, count: u16) -> Option<Self> {
        if time < 1 << 47 {
            Some(Self((time << COUNT_BITS) | count as u64))
        } else {
            None
        }
    }

    /// A stamp that came from elsewhere as the number `time * 65,536 + count`.
    ///
    /// Numbers of 2^63 or more are no stamps; the clock rules refuse them as [`Refusal::Unlawful`].
    pub const fn from_number(number: u64) -> Self {
        Self(number)
    }

    /// The stamp as the number `time * 65,536 + count`.
    pub const fn number(self) -> u64 {
        self.0
    }

    /// The time.
    pub const fn time(self) -> u64 {
        self.0 >> COUNT_BITS
    }

    /// The count.
    pub const fn count(self) -> u16 {
        self.0 as u16
    }
}

impl fmt::Display for Stamp {
    fn fmt(&self, f: &mut fmt::Formatter<'_>) -> fmt::Result {
        write!(f, "{}.{}", self.time(), self.count())
    }
}

/// Why a clock rule makes no stamp.
#[derive(Clone, Copy, Debug, PartialEq, Eq, Hash)]
pub enum Refusal {
    /// A stamp given is 2^63 or more, or the reading is 2^47 or more.
    Unlawful,
    /// The clock has not passed the last stamp and the dependency yet.
    Early,
    /// No stamp is left above the last one or the dependency.
    End,
}

impl Refusal {
    /// The refusal's number in the rules.
    pub const fn number(self) -> u8 {
        match self {
            Self::Unlawful => 3,
            Self::Early => 7,
            Self::End => 8,
        }
    }
}

impl fmt::Display for Refusal {
    fn fmt(&self, f: &mut fmt::Formatter<'_>) -> fmt::Result {
        f.write_str(match self {
            Self::Unlawful => "a stamp or the reading is out of range",
            Self::Early => "the clock has not passed the last stamp and the dependency yet",
            Self::End => "no stamp is left above the last one or the dependency",
        })
    }
}

impl Error for Refusal {}

/// The next stamp by the raw clock rule: the reading itself, with count 0.
///
/// # Errors
///
/// [`Refusal::Early`] if the reading has not passed `last` and `dependency`, [`Refusal::Unlawful`] if a number is out
/// of range.
///
/// ```
/// use price_store::{Refusal, Stamp, raw};
///
/// let last = Stamp::new(100, 0).unwrap();
/// assert_eq!(raw(last, 101, Stamp::ZERO), Ok(Stamp::new(101, 0).unwrap()));
/// assert_eq!(raw(last, 100, Stamp::ZERO), Err(Refusal::Early));
/// assert_eq!(raw(last, 1 << 47, Stamp::ZERO), Err(Refusal::Unlawful));
/// ```
pub fn raw(last: Stamp, reading: u64, dependency: Stamp) -> Result<Stamp, Refusal> {
    stamp(foreign::raw_stamp(last.0, reading, dependency.0))
}

/// The next stamp by the hybrid clock rule: at the reading, or one count above what is at or past it already.
///
/// # Errors
///
/// [`Refusal::End`] if `last` or `dependency` is the top stamp, [`Refusal::Unlawful`] if a number is out of range.
///
/// ```
/// use price_store::{Refusal, Stamp, hybrid};
///
/// let stamp = |time, count| Stamp::new(time, count).unwrap();
/// assert_eq!(hybrid(Stamp::ZERO, 100, Stamp::ZERO), Ok(stamp(100, 0)));
/// assert_eq!(hybrid(stamp(100, 3), 90, stamp(100, 7)), Ok(stamp(100, 8)));
/// assert_eq!(hybrid(Stamp::TOP, 90, Stamp::ZERO), Err(Refusal::End));
/// ```
pub fn hybrid(last: Stamp, reading: u64, dependency: Stamp) -> Result<Stamp, Refusal> {
    stamp(foreign::hybrid_stamp(last.0, reading, dependency.0))
}

fn stamp(answer: i64) -> Result<Stamp, Refusal> {
    match answer {
        -3 => Err(Refusal::Unlawful),
        -7 => Err(Refusal::Early),
        -8 => Err(Refusal::End),
        _ => match u64::try_from(answer) {
            Ok(number) => Ok(Stamp(number)),
            Err(_) => unreachable!("a clock rule was refused with {answer}"),
        },
    }
}
