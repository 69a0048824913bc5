//! The group and every call on it (docs/RULES.md, section 9).

use crate::layout::Layout;
use crate::marks::{MarkKind, Row};
use crate::outbox::Entry;
use crate::refusal::Refusal;
use crate::server::Server;
use crate::snapshots::{Seats, Ticket};
use crate::stamps::{ClockRule, Stamp};
use crate::values::{UncheckedValue, Value};
use crate::versions::{Shown, Version};

/// How many sessions a group can have.
pub const MAX_SESSIONS: usize = 8;

/// A fault to plant in a group: a shortcut that breaks the promises (docs/RULES.md, section 10.4).
#[derive(Clone, Copy, Debug, Default, PartialEq, Eq, Hash)]
pub enum Shortcut {
    /// No fault.
    #[default]
    None,
    /// A put leaves the server's stable mark as it is.
    StableLeftAlone,
    /// A put raises the server's stable mark also by what the session depends on.
    RaisedByDepends,
    /// Tidy looks at the stable mark of the one server in place of those of all servers of the site.
    TidyByOneServer,
}

#[derive(Clone, Copy, Debug, PartialEq, Eq)]
struct Session {
    site: usize,
    depends: Row,
    knows: Row,
}

/// The whole store: all servers of all sites, all sessions and all open snapshots.
///
/// ```
/// use second::{ClockRule, Group, Layout, MarkKind, UncheckedValue};
///
/// let layout = Layout::check(2, 1)?;
/// let mut group = Group::new(layout, ClockRule::Hybrid, MarkKind::Each);
/// let session = group.open_session(0)?;
/// group.tell(0, 0, 100)?;
/// let price = UncheckedValue { kind: 1, amount: 1999 };
/// assert_eq!(group.put(session, 7, price)?.to_string(), "100.0");
/// assert_eq!(group.get(session, 7)?.unwrap().to_string(), "price 1999 100.0 0");
/// # Ok::<(), second::Refusal>(())
/// ```
#[derive(Clone, Debug, PartialEq, Eq)]
pub struct Group {
    layout: Layout,
    rule: ClockRule,
    kind: MarkKind,
    shortcut: Shortcut,
    servers: Vec<Server>,
    sessions: Vec<Session>,
    seats: Seats,
}

impl Group {
    /// A new group.
    pub fn new(layout: Layout, rule: ClockRule, kind: MarkKind) -> Self {
        Self::with_shortcut(layout, rule, kind, Shortcut::None)
    }

    /// A new group with a planted fault.
    pub fn with_shortcut(
        layout: Layout,
        rule: ClockRule,
        kind: MarkKind,
        shortcut: Shortcut,
    ) -> Self {
        let server_of_site = |site| Server::new(site, layout.sites());
        let servers = (0..layout.sites())
            .flat_map(|site| std::iter::repeat_n(site, layout.partitions()))
            .map(server_of_site)
            .collect();
        Self {
            layout,
            rule,
            kind,
            shortcut,
            servers,
            sessions: Vec::with_capacity(MAX_SESSIONS),
            seats: Seats::default(),
        }
    }

    /// Opens a session at a site and answers its number.
    pub fn open_session(&mut self, site: u8) -> Result<u8, Refusal> {
        let site = self.layout.site(site)?;
        if self.sessions.len() >= MAX_SESSIONS {
            return Err(Refusal::NoneFree);
        }
        self.sessions.push(Session {
            site,
            depends: Row::ZERO,
            knows: Row::ZERO,
        });
        Ok(self.sessions.len() as u8 - 1)
    }

    /// Tells a server its physical time.
    pub fn tell(&mut self, site: u8, partition: u8, reading: u64) -> Result<(), Refusal> {
        self.server_mut(site, partition)?.tell(reading)
    }

    /// Writes a value for a key and answers its stamp.
    pub fn put(&mut self, session: u8, key: u16, value: UncheckedValue) -> Result<Stamp, Refusal> {
        let session = self.session(session)?;
        let value = Value::try_from(value)?;
        let Session {
            site,
            depends,
            knows,
        } = self.sessions[session];
        let index = self.key_server(site, key);
        let server = &mut self.servers[index];
        if server.table_is_full() {
            return Err(Refusal::TableFull);
        }
        let stamp = server.next_stamp(self.rule, depends.highest())?;
        let version = Version {
            key,
            value,
            stamp,
            source: site as u8,
            mark: depends,
        };
        server.table.push(version);
        server.send(Entry::Update(version));
        match self.shortcut {
            Shortcut::StableLeftAlone => {}
            Shortcut::RaisedByDepends => server.stable.join_in(&knows.join(&depends)),
            Shortcut::None | Shortcut::TidyByOneServer => server.stable.join_in(&knows),
        }
        self.sessions[session].depends = version.full_mark(self.kind);
        Ok(stamp)
    }

    /// Shows a session the latest visible version of a key.
    pub fn get(&mut self, session: u8, key: u16) -> Result<Option<Shown>, Refusal> {
        let session = self.session(session)?;
        let index = self.key_server(self.sessions[session].site, key);
        let session = &mut self.sessions[session];
        let server = &mut self.servers[index];
        server.stable.join_in(&session.knows);
        session.knows = server.stable;
        let latest = server.latest_visible(self.kind, key);
        Ok(latest.map(|version| show(session, version, self.kind)))
    }

    /// Makes a heartbeat and answers its stamp.
    pub fn heartbeat(&mut self, site: u8, partition: u8) -> Result<Stamp, Refusal> {
        let rule = self.rule;
        let server = self.server_mut(site, partition)?;
        let stamp = server.next_stamp(rule, Stamp::ZERO)?;
        server.send(Entry::Heartbeat(stamp));
        Ok(stamp)
    }

    /// Lets a site take its next entry from another site's server of the same partition.
    pub fn deliver(&mut self, from: u8, to: u8, partition: u8) -> Result<(), Refusal> {
        let (sender, receiver) = self.line(from, to, partition)?;
        let to = usize::from(to);
        let next = self.servers[sender].outbox.next(to);
        match next.ok_or(Refusal::NothingWaits)? {
            Entry::Update(_) if self.servers[receiver].table_is_full() => {
                return Err(Refusal::TableFull);
            }
            _ => {}
        }
        if let Some(entry) = self.servers[sender].outbox.take(to) {
            self.servers[receiver].receive(from.into(), entry);
        }
        Ok(())
    }

    /// Lets a server tell its site how far it has received from each site.
    pub fn report(&mut self, site: u8, partition: u8) -> Result<(), Refusal> {
        let kind = self.kind;
        self.server_mut(site, partition)?.report(kind);
        Ok(())
    }

    /// Raises a server's stable mark by what all servers of its site have reported.
    pub fn stabilise(&mut self, site: u8, partition: u8) -> Result<(), Refusal> {
        let index = self.server_index(site, partition)?;
        let reports = self.site_servers(site.into()).iter();
        let floor = self
            .kind
            .common_floor(reports.map(|server| &server.reported));
        self.servers[index].stable.join_in(&floor);
        Ok(())
    }

    /// Opens a snapshot of a session's site, as one of its servers takes it to be stable.
    pub fn open_snapshot(&mut self, session: u8, partition: u8) -> Result<Ticket, Refusal> {
        let partition = self.layout.partition(partition)?;
        let number = self.session(session)?;
        let seat = self.seats.free_seat()?;
        let session = &mut self.sessions[number];
        let server = &mut self.servers[session.site * self.layout.partitions() + partition];
        let cut = server.stable.join(&session.knows);
        server.stable = cut;
        session.knows = cut;
        Ok(self.seats.open(seat, number, cut))
    }

    /// Reads a key in an open snapshot.
    pub fn read(&mut self, ticket: &Ticket, key: u16) -> Result<Option<Shown>, Refusal> {
        let snapshot = self.seats.find(ticket)?;
        let index = self.key_server(self.sessions[snapshot.session].site, key);
        let session = &mut self.sessions[snapshot.session];
        let server = &mut self.servers[index];
        server.stable.join_in(&snapshot.cut);
        let latest = server.latest_within(self.kind, key, &snapshot.cut);
        Ok(latest.map(|version| show(session, version, self.kind)))
    }

    /// Takes a ticket back and frees its seat.
    pub fn close(&mut self, ticket: Ticket) -> Result<(), Refusal> {
        self.seats.close(ticket)
    }

    /// Drops the versions that a server no longer needs and answers how many.
    pub fn tidy(&mut self, site: u8, partition: u8) -> Result<usize, Refusal> {
        let index = self.server_index(site, partition)?;
        let safe = self.safe_mark(index);
        Ok(self.servers[index].tidy(self.kind, &safe))
    }

    /// How far a server's stamps run ahead of its clock.
    pub fn lead(&self, site: u8, partition: u8) -> Result<i64, Refusal> {
        let index = self.server_index(site, partition)?;
        Ok(self.servers[index].lead())
    }

    /// The layout that the group was made from.
    pub const fn layout(&self) -> Layout {
        self.layout
    }

    /// How many sessions have been opened.
    pub fn session_count(&self) -> usize {
        self.sessions.len()
    }

    /// How many snapshots are open.
    pub fn snapshot_count(&self) -> usize {
        self.seats.open_snapshots().count()
    }

    /// The versions that a server holds, in order of arrival.
    pub fn table(&self, site: u8, partition: u8) -> Result<&[Version], Refusal> {
        let index = self.server_index(site, partition)?;
        Ok(&self.servers[index].table)
    }

    /// How many entries of a server a site has still to take.
    pub fn waiting(&self, from: u8, to: u8, partition: u8) -> Result<usize, Refusal> {
        let (sender, _) = self.line(from, to, partition)?;
        Ok(self.servers[sender].outbox.waiting(to.into()))
    }

    fn safe_mark(&self, index: usize) -> Row {
        let site = index / self.layout.partitions();
        let judged_by = match self.shortcut {
            Shortcut::TidyByOneServer => &self.servers[index..=index],
            _ => self.site_servers(site),
        };
        let stable = judged_by.iter().map(|server| &server.stable);
        let cuts = self
            .seats
            .open_snapshots()
            .filter(|snapshot| self.sessions[snapshot.session].site == site)
            .map(|snapshot| &snapshot.cut);
        self.kind.common_floor(stable.chain(cuts))
    }

    fn session(&self, session: u8) -> Result<usize, Refusal> {
        let session = usize::from(session);
        if session < self.sessions.len() {
            Ok(session)
        } else {
            Err(Refusal::NoSession)
        }
    }

    fn server_index(&self, site: u8, partition: u8) -> Result<usize, Refusal> {
        let site = self.layout.site(site)?;
        let partition = self.layout.partition(partition)?;
        Ok(site * self.layout.partitions() + partition)
    }

    fn server_mut(&mut self, site: u8, partition: u8) -> Result<&mut Server, Refusal> {
        let index = self.server_index(site, partition)?;
        Ok(&mut self.servers[index])
    }

    fn key_server(&self, site: usize, key: u16) -> usize {
        site * self.layout.partitions() + self.layout.partition_of(key)
    }

    fn site_servers(&self, site: usize) -> &[Server] {
        let partitions = self.layout.partitions();
        &self.servers[site * partitions..(site + 1) * partitions]
    }

    fn line(&self, from: u8, to: u8, partition: u8) -> Result<(usize, usize), Refusal> {
        let sender = self.server_index(from, partition)?;
        let receiver = self.server_index(to, partition)?;
        if sender == receiver {
            return Err(Refusal::NotInLayout);
        }
        Ok((sender, receiver))
    }
}

fn show(session: &mut Session, version: &Version, kind: MarkKind) -> Shown {
    session.depends.join_in(&version.full_mark(kind));
    version.shown()
}

#[cfg(test)]
mod tests {
    use super::*;
    use crate::server::MAX_VERSIONS;

    const PRICE: UncheckedValue = UncheckedValue { kind: 1, amount: 5 };
    const UNLAWFUL: UncheckedValue = UncheckedValue { kind: 4, amount: 0 };

    fn group(sites: u8, partitions: u8, rule: ClockRule) -> Group {
        let layout = Layout::check(sites, partitions).unwrap();
        Group::new(layout, rule, MarkKind::Each)
    }

    fn stabilise_all(group: &mut Group, site: u8) {
        let partitions = group.layout().partitions() as u8;
        for partition in 0..partitions {
            group.report(site, partition).unwrap();
        }
        for partition in 0..partitions {
            group.stabilise(site, partition).unwrap();
        }
    }

    #[test]
    fn sessions_are_numbered_over_all_sites_together() {
        let mut group = group(3, 1, ClockRule::Raw);
        for number in 0..8 {
            assert_eq!(group.open_session(number % 3), Ok(number));
        }
        assert_eq!(group.open_session(3), Err(Refusal::NotInLayout));
        assert_eq!(group.open_session(0), Err(Refusal::NoneFree));
    }

    #[test]
    fn the_tests_of_tell_are_made_in_order() {
        let mut group = group(2, 1, ClockRule::Raw);
        group.tell(0, 0, 9).unwrap();
        assert_eq!(group.tell(0, 1, 1 << 47), Err(Refusal::NotInLayout));
        assert_eq!(group.tell(0, 0, 1 << 47), Err(Refusal::Unlawful));
        assert_eq!(group.tell(0, 0, 8), Err(Refusal::ReadingBehind));
        assert_eq!(group.tell(0, 0, 9), Ok(()));
    }

    #[test]
    fn the_tests_of_put_are_made_in_order() {
        let mut group = group(2, 1, ClockRule::Raw);
        assert_eq!(group.put(0, 1, UNLAWFUL), Err(Refusal::NoSession));
        let session = group.open_session(0).unwrap();
        assert_eq!(group.put(session, 1, PRICE), Err(Refusal::Early));
        for reading in 1..=16 {
            group.tell(0, 0, reading).unwrap();
            group.put(session, 1, PRICE).unwrap();
        }
        assert_eq!(group.put(session, 1, PRICE), Err(Refusal::OutboxFull));
        for reading in 17..=32 {
            group.deliver(0, 1, 0).unwrap();
            group.tell(0, 0, reading).unwrap();
            group.put(session, 1, PRICE).unwrap();
        }
        assert_eq!(group.table(0, 0).unwrap().len(), MAX_VERSIONS);
        assert_eq!(group.put(session, 1, PRICE), Err(Refusal::TableFull));
        assert_eq!(group.put(session, 1, UNLAWFUL), Err(Refusal::Unlawful));
    }

    #[test]
    fn a_full_table_refuses_updates_but_no_heartbeats() {
        let mut group = group(2, 1, ClockRule::Hybrid);
        let session = group.open_session(0).unwrap();
        for _ in 0..32 {
            group.put(session, 1, PRICE).unwrap();
            group.deliver(0, 1, 0).unwrap();
        }
        assert_eq!(group.deliver(0, 1, 0), Err(Refusal::NothingWaits));
        group.heartbeat(0, 0).unwrap();
        let other = group.open_session(1).unwrap();
        assert_eq!(group.put(other, 1, PRICE), Err(Refusal::TableFull));
        assert_eq!(group.deliver(0, 1, 0), Ok(()));
        stabilise_all(&mut group, 0);
        assert_eq!(group.tidy(0, 0), Ok(31));
        group.put(session, 1, PRICE).unwrap();
        assert_eq!(group.deliver(0, 1, 0), Err(Refusal::TableFull));
        assert_eq!(group.waiting(0, 1, 0), Ok(1));
    }

    #[test]
    fn a_delivery_goes_from_one_site_to_another() {
        let mut group = group(2, 1, ClockRule::Hybrid);
        assert_eq!(group.deliver(0, 0, 0), Err(Refusal::NotInLayout));
        assert_eq!(group.deliver(0, 2, 0), Err(Refusal::NotInLayout));
        assert_eq!(group.deliver(0, 1, 1), Err(Refusal::NotInLayout));
        assert_eq!(group.deliver(0, 1, 0), Err(Refusal::NothingWaits));
    }

    #[test]
    fn the_tests_of_opening_a_snapshot_are_made_in_order() {
        let mut group = group(2, 1, ClockRule::Hybrid);
        assert_eq!(group.open_snapshot(0, 1), Err(Refusal::NotInLayout));
        assert_eq!(group.open_snapshot(0, 0), Err(Refusal::NoSession));
        group.open_session(0).unwrap();
        let mut tickets: Vec<Ticket> = (0..4).map(|_| group.open_snapshot(0, 0).unwrap()).collect();
        assert_eq!(group.open_snapshot(0, 0), Err(Refusal::NoneFree));
        group.close(tickets.remove(1)).unwrap();
        let again = group.open_snapshot(0, 0).unwrap();
        assert_eq!((again.seat(), again.serial()), (1, 4));
        group.close(again).unwrap();
        for ticket in tickets {
            group.close(ticket).unwrap();
        }
    }

    #[test]
    fn a_ticket_of_another_history_is_not_good() {
        let mut group = group(2, 1, ClockRule::Hybrid);
        group.open_session(0).unwrap();
        let ticket = group.clone().open_snapshot(0, 0).unwrap();
        assert_eq!(group.read(&ticket, 0), Err(Refusal::NotOpen));
        assert_eq!(group.close(ticket), Err(Refusal::NotOpen));
    }

    #[test]
    fn a_snapshot_stands_still() {
        let mut group = group(2, 1, ClockRule::Hybrid);
        let session = group.open_session(0).unwrap();
        group.put(session, 1, PRICE).unwrap();
        let before = group.open_snapshot(session, 0).unwrap();
        assert_eq!(group.read(&before, 1), Ok(None));
        group.deliver(0, 1, 0).unwrap();
        stabilise_all(&mut group, 0);
        assert_eq!(group.read(&before, 1), Ok(None));
        let empty = group.open_snapshot(session, 0).unwrap();
        assert_eq!(group.read(&empty, 1).unwrap().unwrap().source, 0);
        group.close(before).unwrap();
        group.close(empty).unwrap();
    }

    #[test]
    fn equal_stamps_are_ordered_by_source() {
        let mut group = group(2, 1, ClockRule::Raw);
        for site in [1, 0] {
            group.open_session(site).unwrap();
            group.tell(site, 0, 7).unwrap();
        }
        group.put(0, 1, PRICE).unwrap();
        group.put(1, 1, PRICE).unwrap();
        group.deliver(0, 1, 0).unwrap();
        group.deliver(1, 0, 0).unwrap();
        for (site, session) in [(0, 1), (1, 0)] {
            stabilise_all(&mut group, site);
            assert_eq!(group.get(session, 1).unwrap().unwrap().source, 1);
        }
    }

    #[test]
    fn tidy_keeps_what_an_open_snapshot_needs() {
        let mut group = group(2, 1, ClockRule::Hybrid);
        let session = group.open_session(0).unwrap();
        let send = |group: &mut Group| {
            group.put(session, 1, PRICE).unwrap();
            group.deliver(0, 1, 0).unwrap();
            group.heartbeat(1, 0).unwrap();
            group.deliver(1, 0, 0).unwrap();
            stabilise_all(group, 0);
        };
        send(&mut group);
        let ticket = group.open_snapshot(session, 0).unwrap();
        send(&mut group);
        assert_eq!(group.tidy(0, 0), Ok(0));
        group.close(ticket).unwrap();
        assert_eq!(group.tidy(0, 0), Ok(1));
        assert_eq!(group.table(0, 0).unwrap().len(), 1);
    }

    #[test]
    fn the_hybrid_clock_comes_to_its_end() {
        let mut group = group(2, 1, ClockRule::Hybrid);
        group.tell(0, 0, (1 << 47) - 1).unwrap();
        let mut made = 0;
        let refusal = loop {
            match group.heartbeat(0, 0) {
                Ok(_) => made += 1,
                Err(refusal) => break refusal,
            }
            group.deliver(0, 1, 0).unwrap();
        };
        assert_eq!((made, refusal), (65_536, Refusal::End));
        assert_eq!(group.lead(0, 0), Ok(0));
    }

    #[test]
    fn a_refused_call_leaves_everything_as_it_was() {
        let mut group = group(2, 2, ClockRule::Raw);
        let session = group.open_session(0).unwrap();
        let before = group.clone();
        assert!(group.put(session, 1, PRICE).is_err());
        assert!(group.heartbeat(1, 1).is_err());
        assert!(group.deliver(0, 1, 1).is_err());
        assert!(group.stabilise(0, 2).is_err());
        assert_eq!(group, before);
    }
}
