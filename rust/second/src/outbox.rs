//! Outboxes: what other sites have still to take (docs/RULES.md, section 6.3).

use std::collections::VecDeque;

use crate::stamps::Stamp;
use crate::versions::Version;

/// How many entries one other site can have still to take.
pub const MAX_WAITING: usize = 16;

/// What one server tells the servers of its partition at the other sites.
#[derive(Clone, Copy, Debug, PartialEq, Eq)]
pub enum Entry {
    /// A new version.
    Update(Version),
    /// A stamp that the server has reached.
    Heartbeat(Stamp),
}

impl Entry {
    /// The stamp of the entry.
    pub fn stamp(&self) -> Stamp {
        match self {
            Self::Update(version) => version.stamp,
            Self::Heartbeat(stamp) => *stamp,
        }
    }
}

/// The entries that some other site has still to take, oldest first.
///
/// A site always has the newest entries still to take, so a count for each site says which.
#[derive(Clone, Debug, PartialEq, Eq)]
pub(crate) struct Outbox {
    own_site: usize,
    sites: usize,
    entries: VecDeque<Entry>,
    waiting: [usize; 4],
}

impl Outbox {
    pub(crate) fn new(own_site: usize, sites: usize) -> Self {
        Self {
            own_site,
            sites,
            entries: VecDeque::new(),
            waiting: [0; 4],
        }
    }

    pub(crate) fn is_full(&self) -> bool {
        self.entries.len() >= MAX_WAITING
    }

    /// How many entries the site has still to take.
    pub(crate) fn waiting(&self, site: usize) -> usize {
        self.waiting[site]
    }

    pub(crate) fn push(&mut self, entry: Entry) {
        for site in (0..self.sites).filter(|&site| site != self.own_site) {
            self.waiting[site] += 1;
        }
        self.entries.push_back(entry);
    }

    /// The next entry for the site.
    pub(crate) fn next(&self, site: usize) -> Option<&Entry> {
        self.entries.get(self.entries.len() - self.waiting[site])
    }

    /// The site takes its next entry.
    pub(crate) fn take(&mut self, site: usize) -> Option<Entry> {
        let entry = *self.next(site)?;
        self.waiting[site] -= 1;
        let slowest = self.waiting.into_iter().max().unwrap_or(0);
        while self.entries.len() > slowest {
            self.entries.pop_front();
        }
        Some(entry)
    }
}

#[cfg(test)]
mod tests {
    use super::*;

    fn heartbeat(number: u64) -> Entry {
        Entry::Heartbeat(Stamp::from_number(number).unwrap())
    }

    #[test]
    fn each_site_takes_every_entry_in_order() {
        let mut outbox = Outbox::new(1, 3);
        for number in 1..=3 {
            outbox.push(heartbeat(number));
        }
        assert_eq!(outbox.take(0), Some(heartbeat(1)));
        assert_eq!(outbox.take(0), Some(heartbeat(2)));
        assert_eq!(outbox.entries.len(), 3);
        assert_eq!(outbox.take(2), Some(heartbeat(1)));
        assert_eq!(outbox.entries.len(), 2);
        outbox.push(heartbeat(4));
        for number in 2..=4 {
            assert_eq!(outbox.take(2), Some(heartbeat(number)));
        }
        assert_eq!(outbox.take(2), None);
        assert_eq!(outbox.waiting(0), 2);
        assert_eq!(outbox.waiting(1), 0);
    }

    #[test]
    fn the_slowest_site_makes_it_full() {
        let mut outbox = Outbox::new(0, 3);
        for number in 1..=16 {
            assert!(!outbox.is_full());
            outbox.push(heartbeat(number));
            outbox.take(1);
        }
        assert!(outbox.is_full());
        outbox.take(2);
        assert!(!outbox.is_full());
    }
}
