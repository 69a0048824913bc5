//! Layouts: how many sites and how many partitions a group has (docs/RULES.md, section 2.1).

use crate::refusal::Refusal;

/// A checked layout. Only such a layout can make a group.
///
/// ```
/// use second::{Layout, Refusal};
///
/// assert!(Layout::check(2, 4).is_ok());
/// assert_eq!(Layout::check(5, 1), Err(Refusal::BadLayout));
/// ```
#[derive(Clone, Copy, Debug, PartialEq, Eq, Hash)]
pub struct Layout {
    sites: usize,
    partitions: usize,
}

impl Layout {
    /// Checks a draft layout.
    pub fn check(sites: u8, partitions: u8) -> Result<Self, Refusal> {
        if !(2..=4).contains(&sites) || !(1..=4).contains(&partitions) {
            return Err(Refusal::BadLayout);
        }
        Ok(Self {
            sites: sites.into(),
            partitions: partitions.into(),
        })
    }

    /// The number of sites.
    pub const fn sites(self) -> usize {
        self.sites
    }

    /// The number of partitions.
    pub const fn partitions(self) -> usize {
        self.partitions
    }

    /// The partition that a key belongs to.
    pub fn partition_of(self, key: u16) -> usize {
        usize::from(key) % self.partitions
    }

    pub(crate) fn site(self, site: u8) -> Result<usize, Refusal> {
        in_range(site, self.sites)
    }

    pub(crate) fn partition(self, partition: u8) -> Result<usize, Refusal> {
        in_range(partition, self.partitions)
    }
}

fn in_range(number: u8, count: usize) -> Result<usize, Refusal> {
    let number = usize::from(number);
    if number < count {
        Ok(number)
    } else {
        Err(Refusal::NotInLayout)
    }
}

#[cfg(test)]
mod tests {
    use super::*;

    #[test]
    fn counts_outside_their_ranges_are_refused() {
        for sites in 0..=255 {
            for partitions in 0..=255 {
                let lawful = (2..=4).contains(&sites) && (1..=4).contains(&partitions);
                assert_eq!(Layout::check(sites, partitions).is_ok(), lawful);
            }
        }
    }

    #[test]
    fn a_key_belongs_to_the_partition_of_its_remainder() {
        let layout = Layout::check(2, 3).unwrap();
        assert_eq!(layout.partition_of(5), 2);
        assert_eq!(layout.partition_of(65_535), 0);
    }
}
