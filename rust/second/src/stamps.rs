//! Stamps, readings and the two clock rules (docs/RULES.md, sections 3 and 4).

use std::fmt;

use crate::refusal::Refusal;

/// A stamp: `time * 65,536 + count`, below 2^63.
#[derive(Clone, Copy, Debug, Default, PartialEq, Eq, PartialOrd, Ord, Hash)]
pub struct Stamp(u64);

impl Stamp {
    /// The stamp 0.0.
    pub const ZERO: Self = Self(0);
    /// The highest stamp, 2^63 - 1.
    pub const TOP: Self = Self((1 << 63) - 1);

    /// The stamp that is this number, if it is below 2^63.
    pub fn from_number(number: u64) -> Result<Self, Refusal> {
        if number <= Self::TOP.0 {
            Ok(Self(number))
        } else {
            Err(Refusal::Unlawful)
        }
    }

    fn of(time: u64, count: u64) -> Self {
        Self((time << 16) + count)
    }

    /// The stamp as a number.
    pub const fn number(self) -> u64 {
        self.0
    }

    /// The upper 47 bits.
    pub const fn time(self) -> u64 {
        self.0 >> 16
    }

    /// The lower 16 bits.
    pub const fn count(self) -> u16 {
        self.0 as u16
    }
}

impl fmt::Display for Stamp {
    fn fmt(&self, f: &mut fmt::Formatter<'_>) -> fmt::Result {
        write!(f, "{}.{}", self.time(), self.count())
    }
}

/// The physical time of a server, below 2^47.
#[derive(Clone, Copy, Debug, Default, PartialEq, Eq, PartialOrd, Ord, Hash)]
pub struct Reading(u64);

impl Reading {
    /// The reading that is this number, if it is below 2^47.
    pub fn from_number(number: u64) -> Result<Self, Refusal> {
        if number < 1 << 47 {
            Ok(Self(number))
        } else {
            Err(Refusal::Unlawful)
        }
    }

    /// The reading as a number.
    pub const fn number(self) -> u64 {
        self.0
    }
}

/// How a server makes its next stamp.
#[derive(Clone, Copy, Debug, PartialEq, Eq, Hash)]
pub enum ClockRule {
    /// The reading itself, or early.
    Raw,
    /// A hybrid logical clock.
    Hybrid,
}

impl ClockRule {
    /// The next stamp, above `last` and `dependency`; or early, or end.
    pub fn stamp(self, last: Stamp, reading: Reading, dependency: Stamp) -> Result<Stamp, Refusal> {
        match self {
            Self::Raw => raw(last, reading, dependency),
            Self::Hybrid => hybrid(last, reading, dependency),
        }
    }

    /// [`ClockRule::stamp`] of numbers that nobody has checked yet.
    pub fn stamp_of_numbers(
        self,
        last: u64,
        reading: u64,
        dependency: u64,
    ) -> Result<Stamp, Refusal> {
        let last = Stamp::from_number(last)?;
        let dependency = Stamp::from_number(dependency)?;
        let reading = Reading::from_number(reading)?;
        self.stamp(last, reading, dependency)
    }
}

fn raw(last: Stamp, reading: Reading, dependency: Stamp) -> Result<Stamp, Refusal> {
    let stamp = Stamp::of(reading.0, 0);
    if stamp <= last || stamp <= dependency {
        Err(Refusal::Early)
    } else {
        Ok(stamp)
    }
}

fn hybrid(last: Stamp, reading: Reading, dependency: Stamp) -> Result<Stamp, Refusal> {
    if last == Stamp::TOP || dependency == Stamp::TOP {
        return Err(Refusal::End);
    }
    let time = last.time().max(dependency.time()).max(reading.0);
    let highest_count = [last, dependency]
        .into_iter()
        .filter(|old| old.time() == time)
        .map(Stamp::count)
        .max();
    Ok(match highest_count {
        None => Stamp::of(time, 0),
        Some(u16::MAX) => Stamp::of(time + 1, 0),
        Some(count) => Stamp::of(time, u64::from(count) + 1),
    })
}

#[cfg(test)]
mod tests {
    use super::*;

    const LAST_TIME: u64 = (1 << 47) - 1;

    fn stamp(
        rule: ClockRule,
        last: Stamp,
        reading: u64,
        dependency: Stamp,
    ) -> Result<Stamp, Refusal> {
        rule.stamp(last, Reading(reading), dependency)
    }

    #[test]
    fn worked_edges() {
        use ClockRule::{Hybrid, Raw};
        let zero = Stamp::ZERO;
        let at = Stamp::of;
        assert_eq!(stamp(Hybrid, zero, 100, zero), Ok(at(100, 0)));
        assert_eq!(stamp(Hybrid, at(100, 3), 90, at(100, 7)), Ok(at(100, 8)));
        assert_eq!(stamp(Hybrid, at(100, 65_535), 100, zero), Ok(at(101, 0)));
        assert_eq!(stamp(Raw, at(100, 0), 100, zero), Err(Refusal::Early));
        assert_eq!(stamp(Raw, at(100, 0), 101, zero), Ok(at(101, 0)));
        assert_eq!(stamp(Raw, zero, 100, at(100, 0)), Err(Refusal::Early));
    }

    #[test]
    fn the_count_follows_the_old_times_that_are_the_greatest() {
        use ClockRule::Hybrid;
        let at = Stamp::of;
        assert_eq!(stamp(Hybrid, at(100, 9), 50, at(99, 20)), Ok(at(100, 10)));
        assert_eq!(stamp(Hybrid, at(99, 20), 50, at(100, 9)), Ok(at(100, 10)));
        assert_eq!(stamp(Hybrid, at(99, 20), 101, at(100, 9)), Ok(at(101, 0)));
        assert_eq!(stamp(Hybrid, Stamp::ZERO, 0, Stamp::ZERO), Ok(at(0, 1)));
    }

    #[test]
    fn hybrid_ends_exactly_at_the_top_stamp() {
        use ClockRule::Hybrid;
        let before_top = Stamp::of(LAST_TIME, 65_534);
        assert_eq!(stamp(Hybrid, Stamp::TOP, 0, Stamp::ZERO), Err(Refusal::End));
        assert_eq!(stamp(Hybrid, Stamp::ZERO, 0, Stamp::TOP), Err(Refusal::End));
        assert_eq!(
            stamp(Hybrid, before_top, LAST_TIME, before_top),
            Ok(Stamp::TOP)
        );
        let carried = stamp(Hybrid, Stamp::of(LAST_TIME - 1, 65_535), 0, Stamp::ZERO);
        assert_eq!(carried, Ok(Stamp::of(LAST_TIME, 0)));
    }

    #[test]
    fn numbers_are_checked_before_the_rule() {
        use ClockRule::{Hybrid, Raw};
        let top = Stamp::TOP.number();
        for rule in [Raw, Hybrid] {
            assert_eq!(rule.stamp_of_numbers(1 << 63, 0, 0), Err(Refusal::Unlawful));
            assert_eq!(
                rule.stamp_of_numbers(0, 0, u64::MAX),
                Err(Refusal::Unlawful)
            );
            assert_eq!(
                rule.stamp_of_numbers(top, 1 << 47, top),
                Err(Refusal::Unlawful)
            );
        }
        assert_eq!(Hybrid.stamp_of_numbers(top, 0, 0), Err(Refusal::End));
        assert_eq!(Raw.stamp_of_numbers(top, LAST_TIME, 0), Err(Refusal::Early));
    }

    #[test]
    fn the_top_stamp_is_written_with_all_its_digits() {
        assert_eq!(Stamp::TOP.to_string(), "140737488355327.65535");
    }
}
