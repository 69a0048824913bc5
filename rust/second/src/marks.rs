//! Rows, and the two kinds of mark (docs/RULES.md, section 5).
//!
//! A mark is kept as the row that it means; the kind's floor gives the mark back.

use crate::refusal::Refusal;
use crate::stamps::Stamp;

const SITES: usize = 4;

/// One stamp for each of the four site numbers.
#[derive(Clone, Copy, Debug, Default, PartialEq, Eq, Hash)]
pub struct Row([Stamp; SITES]);

impl Row {
    /// 0.0 at each entry.
    pub const ZERO: Self = Self([Stamp::ZERO; SITES]);
    /// The top stamp at each entry.
    pub const TOP: Self = Self([Stamp::TOP; SITES]);

    /// The row of these four stamps.
    pub const fn new(entries: [Stamp; SITES]) -> Self {
        Self(entries)
    }

    /// The row of four numbers that nobody has checked yet.
    pub fn from_numbers(numbers: [u64; SITES]) -> Result<Self, Refusal> {
        let mut row = Self::ZERO;
        for (entry, number) in row.0.iter_mut().zip(numbers) {
            *entry = Stamp::from_number(number)?;
        }
        Ok(row)
    }

    /// The entry of a site.
    pub fn entry(&self, site: usize) -> Stamp {
        self.0[site]
    }

    pub(crate) fn set(&mut self, site: usize, stamp: Stamp) {
        self.0[site] = stamp;
    }

    /// Whether no entry of this row is lower than the same entry of the other.
    pub fn covers(&self, other: &Self) -> bool {
        self.0.iter().zip(&other.0).all(|(own, other)| own >= other)
    }

    /// At each entry the greater of the two stamps.
    pub fn join(&self, other: &Self) -> Self {
        self.by_entry(other, Stamp::max)
    }

    /// At each entry the lesser of the two stamps.
    pub fn meet(&self, other: &Self) -> Self {
        self.by_entry(other, Stamp::min)
    }

    pub(crate) fn join_in(&mut self, other: &Self) {
        *self = self.join(other);
    }

    /// The greatest of the four stamps.
    pub fn highest(&self) -> Stamp {
        self.0.into_iter().fold(Stamp::ZERO, Stamp::max)
    }

    /// The least of the four stamps.
    pub fn lowest(&self) -> Stamp {
        self.0.into_iter().fold(Stamp::TOP, Stamp::min)
    }

    fn by_entry(&self, other: &Self, pick: fn(Stamp, Stamp) -> Stamp) -> Self {
        Self(std::array::from_fn(|site| {
            pick(self.0[site], other.0[site])
        }))
    }
}

/// The form of a group's marks.
#[derive(Clone, Copy, Debug, PartialEq, Eq, Hash)]
pub enum MarkKind {
    /// One stamp, which stands for all four sites.
    One,
    /// A stamp for each of the four sites.
    Each,
}

impl MarkKind {
    /// How many columns the form of a mark has.
    pub const fn columns(self) -> usize {
        match self {
            Self::One => 1,
            Self::Each => SITES,
        }
    }

    /// The greatest mark that the row covers.
    pub fn floor(self, row: &Row) -> Row {
        match self {
            Self::One => Row([row.lowest(); SITES]),
            Self::Each => *row,
        }
    }

    /// The least mark with at least this stamp at this site.
    pub fn lift(self, site: usize, stamp: Stamp) -> Row {
        match self {
            Self::One => Row([stamp; SITES]),
            Self::Each => {
                let mut row = Row::ZERO;
                row.set(site, stamp);
                row
            }
        }
    }

    /// [`MarkKind::lift`] of numbers that nobody has checked yet.
    pub fn lift_of_numbers(self, site: u8, stamp: u64) -> Result<Row, Refusal> {
        let stamp = Stamp::from_number(stamp)?;
        let site = usize::from(site);
        if site >= SITES {
            return Err(Refusal::NotInLayout);
        }
        Ok(self.lift(site, stamp))
    }

    /// The greatest mark that every row of the run covers.
    pub fn common_floor<'a>(self, rows: impl IntoIterator<Item = &'a Row>) -> Row {
        rows.into_iter()
            .fold(Row::TOP, |floor, row| floor.meet(&self.floor(row)))
    }
}

#[cfg(test)]
mod tests {
    use super::*;

    fn row(numbers: [u64; 4]) -> Row {
        Row::from_numbers(numbers).unwrap()
    }

    #[test]
    fn worked_edge_of_the_floor() {
        let uneven = row([5, 3, 9, 4]);
        assert_eq!(MarkKind::One.floor(&uneven), row([3; 4]));
        assert_eq!(MarkKind::Each.floor(&uneven), uneven);
    }

    #[test]
    fn lifts() {
        let stamp = Stamp::from_number(7).unwrap();
        assert_eq!(MarkKind::One.lift(2, stamp), row([7; 4]));
        assert_eq!(MarkKind::Each.lift(2, stamp), row([0, 0, 7, 0]));
    }

    #[test]
    fn numbers_from_outside_are_checked_stamp_before_site() {
        let lift = |site, stamp| MarkKind::Each.lift_of_numbers(site, stamp);
        assert_eq!(lift(4, 1 << 63), Err(Refusal::Unlawful));
        assert_eq!(lift(4, 1), Err(Refusal::NotInLayout));
        assert_eq!(lift(3, 1), Ok(row([0, 0, 0, 1])));
        assert_eq!(
            Row::from_numbers([0, 0, 0, 1 << 63]),
            Err(Refusal::Unlawful)
        );
    }

    #[test]
    fn common_floors() {
        let rows = [row([5, 3, 9, 4]), row([4, 8, 9, 9])];
        for kind in [MarkKind::One, MarkKind::Each] {
            assert_eq!(kind.common_floor([]), Row::TOP);
        }
        assert_eq!(MarkKind::One.common_floor(&rows), row([3; 4]));
        assert_eq!(MarkKind::Each.common_floor(&rows), row([4, 3, 9, 4]));
    }

    #[test]
    fn a_row_covers_itself_and_what_is_nowhere_higher() {
        let low = row([1, 2, 3, 4]);
        let high = row([1, 2, 4, 4]);
        assert!(low.covers(&low) && high.covers(&low) && !low.covers(&high));
        assert_eq!(low.join(&high), high);
        assert_eq!(low.meet(&high), low);
    }
}
