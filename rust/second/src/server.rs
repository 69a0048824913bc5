//! Servers: a site's replica of one partition (docs/RULES.md, section 6).

use crate::marks::{MarkKind, Row};
use crate::outbox::{Entry, Outbox};
use crate::refusal::Refusal;
use crate::stamps::{ClockRule, Reading, Stamp};
use crate::versions::Version;

/// How many versions a server can hold.
pub const MAX_VERSIONS: usize = 32;

#[derive(Clone, Debug, PartialEq, Eq)]
pub(crate) struct Server {
    site: usize,
    reading: Reading,
    last: Stamp,
    pub(crate) table: Vec<Version>,
    pub(crate) outbox: Outbox,
    received: Row,
    pub(crate) reported: Row,
    pub(crate) stable: Row,
}

impl Server {
    pub(crate) fn new(site: usize, sites: usize) -> Self {
        let mut received = Row::ZERO;
        for missing in sites..4 {
            received.set(missing, Stamp::TOP);
        }
        Self {
            site,
            reading: Reading::default(),
            last: Stamp::ZERO,
            table: Vec::new(),
            outbox: Outbox::new(site, sites),
            received,
            reported: Row::ZERO,
            stable: Row::ZERO,
        }
    }

    pub(crate) fn tell(&mut self, reading: u64) -> Result<(), Refusal> {
        let reading = Reading::from_number(reading)?;
        if reading < self.reading {
            return Err(Refusal::ReadingBehind);
        }
        self.reading = reading;
        Ok(())
    }

    pub(crate) fn lead(&self) -> i64 {
        self.last.time() as i64 - self.reading.number() as i64
    }

    pub(crate) fn table_is_full(&self) -> bool {
        self.table.len() >= MAX_VERSIONS
    }

    /// The stamp that the server would make next, unless its outbox is full or the clock rule refuses.
    pub(crate) fn next_stamp(&self, rule: ClockRule, dependency: Stamp) -> Result<Stamp, Refusal> {
        if self.outbox.is_full() {
            return Err(Refusal::OutboxFull);
        }
        rule.stamp(self.last, self.reading, dependency)
    }

    /// Sends an entry that the server has made, whose stamp is its last from now on.
    pub(crate) fn send(&mut self, entry: Entry) {
        self.last = entry.stamp();
        self.outbox.push(entry);
    }

    pub(crate) fn receive(&mut self, from: usize, entry: Entry) {
        self.received.set(from, entry.stamp());
        if let Entry::Update(version) = entry {
            self.table.push(version);
        }
    }

    pub(crate) fn report(&mut self, kind: MarkKind) {
        self.reported = kind.floor(&self.received_row());
    }

    fn received_row(&self) -> Row {
        let mut row = self.received;
        row.set(self.site, self.last);
        row
    }

    /// The latest version of the key that is local or whose full mark the stable mark covers.
    pub(crate) fn latest_visible(&self, kind: MarkKind, key: u16) -> Option<&Version> {
        self.latest(key, |version| {
            usize::from(version.source) == self.site || self.stable.covers(&version.full_mark(kind))
        })
    }

    /// The latest version of the key whose full mark the cut covers, local ones not excepted.
    pub(crate) fn latest_within(&self, kind: MarkKind, key: u16, cut: &Row) -> Option<&Version> {
        self.latest(key, |version| cut.covers(&version.full_mark(kind)))
    }

    fn latest(&self, key: u16, eligible: impl Fn(&Version) -> bool) -> Option<&Version> {
        self.table
            .iter()
            .filter(|version| version.key == key && eligible(version))
            .max_by_key(|version| version.order())
    }

    /// Drops each version of which the table has a later one that the safe mark covers; says how many it dropped.
    pub(crate) fn tidy(&mut self, kind: MarkKind, safe: &Row) -> usize {
        let covered: Vec<_> = self
            .table
            .iter()
            .filter(|version| safe.covers(&version.full_mark(kind)))
            .map(|version| (version.key, version.order()))
            .collect();
        let held = self.table.len();
        self.table.retain(|version| {
            !covered
                .iter()
                .any(|&(key, order)| key == version.key && order > version.order())
        });
        held - self.table.len()
    }
}
