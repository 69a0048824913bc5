//! Makes calls on a group and checks after each of them what the store promises (docs/RULES.md, section 10.3).
//!
//! The pasts follow from the calls and their answers alone. What a call would answer is found on a copy of the group.

use std::fmt;

use second::{
    Group, MAX_SESSIONS, MAX_SNAPSHOTS, MAX_VERSIONS, MAX_WAITING, Refusal, Shown, Stamp, Ticket,
    UncheckedValue, Value,
};

use crate::puts::{Past, Put, PutId, Puts};

/// What a run has shown to be broken.
#[derive(Clone, Copy, Debug, PartialEq, Eq)]
pub enum Broken {
    /// Promise (a): a put is not later than a put of its key in its past.
    PutNotLater,
    /// Promise (a): a get would show none or a version older than one in the session's past.
    CauseHidden,
    /// Promise (b): an open snapshot would answer a read in another way than right after its opening.
    SnapshotMoved,
    /// Promise (b): an answer of a snapshot is older than a put in the past of an answer of the same snapshot.
    SnapshotTorn,
    /// Promise (c): with every outbox empty, two sites hold different latest versions of a key.
    SitesDisagree,
    /// Two puts have one name.
    NameTwice,
    /// What was shown was never put.
    ShownNeverPut,
    /// A capacity is exceeded.
    TooMany,
    /// A refused call has changed something.
    RefusalChanged,
    /// A good ticket was refused.
    TicketRefused,
    /// A get of a session that was opened was refused.
    GetRefused,
}

impl fmt::Display for Broken {
    fn fmt(&self, f: &mut fmt::Formatter<'_>) -> fmt::Result {
        f.write_str(match self {
            Self::PutNotLater => "(a) a put is not later than a put of its key in its past",
            Self::CauseHidden => "(a) a get would not show what is in the session's past",
            Self::SnapshotMoved => "(b) an open snapshot would change an answer",
            Self::SnapshotTorn => "(b) answers of a snapshot do not fit together",
            Self::SitesDisagree => "(c) sites disagree with every outbox empty",
            Self::NameTwice => "two puts have one name",
            Self::ShownNeverPut => "what was shown was never put",
            Self::TooMany => "a capacity is exceeded",
            Self::RefusalChanged => "a refused call has changed something",
            Self::TicketRefused => "a good ticket was refused",
            Self::GetRefused => "a get of an opened session was refused",
        })
    }
}

/// A call on a group. A snapshot is given by its place among those that are open.
#[derive(Clone, Copy, Debug, PartialEq, Eq)]
pub enum Call {
    OpenSession {
        site: u8,
    },
    Tell {
        site: u8,
        partition: u8,
        reading: u64,
    },
    Put {
        session: u8,
        key: u16,
        value: UncheckedValue,
    },
    Get {
        session: u8,
        key: u16,
    },
    Heartbeat {
        site: u8,
        partition: u8,
    },
    Deliver {
        from: u8,
        to: u8,
        partition: u8,
    },
    Report {
        site: u8,
        partition: u8,
    },
    Stabilise {
        site: u8,
        partition: u8,
    },
    OpenSnapshot {
        session: u8,
        partition: u8,
    },
    Read {
        snapshot: usize,
        key: u16,
    },
    Close {
        snapshot: usize,
    },
    Tidy {
        site: u8,
        partition: u8,
    },
    Lead {
        site: u8,
        partition: u8,
    },
}

struct Session {
    site: u8,
    past: Past,
}

struct Snapshot {
    ticket: Ticket,
    session: usize,
    /// The answer to a read of each key right after the opening.
    answers: Vec<Option<PutId>>,
}

/// A group, its history as far as the promises need it, and what has been counted.
pub struct Observer {
    group: Group,
    keys: Vec<u16>,
    puts: Puts,
    sessions: Vec<Session>,
    snapshots: Vec<Snapshot>,
    pub counts: Counts,
}

/// How much was checked.
#[derive(Clone, Copy, Debug, Default)]
pub struct Counts {
    pub calls: u64,
    pub refused: u64,
    pub puts: u64,
    pub shown: u64,
    pub causes: u64,
    pub snapshot_answers: u64,
    pub agreements: u64,
}

impl Counts {
    pub fn add(&mut self, other: &Self) {
        self.calls += other.calls;
        self.refused += other.refused;
        self.puts += other.puts;
        self.shown += other.shown;
        self.causes += other.causes;
        self.snapshot_answers += other.snapshot_answers;
        self.agreements += other.agreements;
    }
}

impl Observer {
    /// Watches a new group whose sessions will put and get these keys.
    pub fn new(group: Group, keys: Vec<u16>) -> Self {
        Self {
            group,
            keys,
            puts: Puts::default(),
            sessions: Vec::new(),
            snapshots: Vec::new(),
            counts: Counts::default(),
        }
    }

    pub fn group(&self) -> &Group {
        &self.group
    }

    pub fn open_snapshots(&self) -> usize {
        self.snapshots.len()
    }

    pub fn has_room_for_puts(&self) -> bool {
        !self.puts.is_full()
    }

    /// The site of a session.
    pub fn site_of(&self, session: u8) -> Option<u8> {
        self.sessions
            .get(usize::from(session))
            .map(|session| session.site)
    }

    /// Makes a call, then checks every promise.
    pub fn call(&mut self, call: Call) -> Result<(), Broken> {
        self.counts.calls += 1;
        let before = self.group.clone();
        match self.make(call)? {
            Ok(()) => self.check(),
            Err(_) => {
                self.counts.refused += 1;
                self.refused_left_all(&before)
            }
        }
    }

    fn refused_left_all(&self, before: &Group) -> Result<(), Broken> {
        if self.group == *before {
            Ok(())
        } else {
            Err(Broken::RefusalChanged)
        }
    }

    fn make(&mut self, call: Call) -> Result<Result<(), Refusal>, Broken> {
        let group = &mut self.group;
        Ok(match call {
            Call::OpenSession { site } => group.open_session(site).map(|_| {
                let past = Past::default();
                self.sessions.push(Session { site, past });
            }),
            Call::Tell {
                site,
                partition,
                reading,
            } => group.tell(site, partition, reading),
            Call::Put {
                session,
                key,
                value,
            } => match group.put(session, key, value) {
                Ok(stamp) => Ok(self.note_put(session.into(), key, value, stamp)?),
                Err(refusal) => Err(refusal),
            },
            Call::Get { session, key } => match group.get(session, key) {
                Ok(shown) => {
                    self.note_answer(session.into(), key, shown)?;
                    Ok(())
                }
                Err(refusal) => Err(refusal),
            },
            Call::Heartbeat { site, partition } => group.heartbeat(site, partition).map(|_| ()),
            Call::Deliver {
                from,
                to,
                partition,
            } => group.deliver(from, to, partition),
            Call::Report { site, partition } => group.report(site, partition),
            Call::Stabilise { site, partition } => group.stabilise(site, partition),
            Call::OpenSnapshot { session, partition } => {
                match group.open_snapshot(session, partition) {
                    Ok(ticket) => Ok(self.note_snapshot(session.into(), ticket)?),
                    Err(refusal) => Err(refusal),
                }
            }
            Call::Read { snapshot, key } => Ok(self.read(snapshot, key)?),
            Call::Close { snapshot } => Ok(self.close(snapshot)?),
            Call::Tidy { site, partition } => group.tidy(site, partition).map(|_| ()),
            Call::Lead { site, partition } => group.lead(site, partition).map(|_| ()),
        })
    }

    fn note_put(
        &mut self,
        session: usize,
        key: u16,
        value: UncheckedValue,
        stamp: Stamp,
    ) -> Result<(), Broken> {
        self.counts.puts += 1;
        let Session { site, past } = &mut self.sessions[session];
        let value = Value::try_from(value).map_err(|_| Broken::ShownNeverPut)?;
        let put = Put {
            key,
            value,
            stamp,
            source: *site,
            past: *past,
        };
        let put = self.puts.add(put).ok_or(Broken::NameTwice)?;
        let cause = self.puts.latest_in(past, key);
        past.add(put);
        match cause {
            Some(cause) if !self.puts.is_older(Some(cause), put) => Err(Broken::PutNotLater),
            _ => Ok(()),
        }
    }

    fn note_answer(
        &mut self,
        session: usize,
        key: u16,
        shown: Option<Shown>,
    ) -> Result<Option<PutId>, Broken> {
        let answer = self.put_of(key, shown)?;
        if let Some(put) = answer {
            self.counts.shown += 1;
            let past = &mut self.sessions[session].past;
            past.add(put);
            past.add_all(&self.puts.get(put).past);
        }
        Ok(answer)
    }

    fn put_of(&self, key: u16, shown: Option<Shown>) -> Result<Option<PutId>, Broken> {
        match shown {
            None => Ok(None),
            Some(shown) => match self.puts.shown(key, shown) {
                None => Err(Broken::ShownNeverPut),
                put => Ok(put),
            },
        }
    }

    /// Each read of a snapshot must be answered as right after its opening, so it is enough that those answers fit
    /// together.
    fn note_snapshot(&mut self, session: usize, ticket: Ticket) -> Result<(), Broken> {
        let answers = (0..self.keys.len())
            .map(|index| self.would_read(&ticket, self.keys[index]))
            .collect::<Result<Vec<_>, _>>();
        let fits = answers
            .as_ref()
            .is_ok_and(|answers| self.fit_together(answers));
        self.snapshots.push(Snapshot {
            ticket,
            session,
            answers: answers?,
        });
        if fits {
            Ok(())
        } else {
            Err(Broken::SnapshotTorn)
        }
    }

    fn fit_together(&self, answers: &[Option<PutId>]) -> bool {
        let mut past = Past::default();
        for &answer in answers {
            past.add_all(&self.puts.past_of(answer));
        }
        self.keys.iter().zip(answers).all(|(&key, &answer)| {
            self.puts
                .latest_in(&past, key)
                .is_none_or(|put| !self.puts.is_older(answer, put))
        })
    }

    fn read(&mut self, snapshot: usize, key: u16) -> Result<(), Broken> {
        let Snapshot {
            ticket,
            session,
            answers,
        } = &self.snapshots[snapshot];
        let shown = self
            .group
            .read(ticket, key)
            .map_err(|_| Broken::TicketRefused)?;
        let index = self.keys.iter().position(|&known| known == key);
        let first = index.map(|index| answers[index]);
        let answer = self.note_answer(*session, key, shown)?;
        if first.is_none_or(|first| first == answer) {
            Ok(())
        } else {
            Err(Broken::SnapshotMoved)
        }
    }

    fn close(&mut self, snapshot: usize) -> Result<(), Broken> {
        let Snapshot { ticket, .. } = self.snapshots.swap_remove(snapshot);
        self.group.close(ticket).map_err(|_| Broken::TicketRefused)
    }

    fn check(&mut self) -> Result<(), Broken> {
        self.check_capacities()?;
        self.check_causes()?;
        self.check_snapshots()?;
        self.check_agreement()
    }

    fn servers(&self) -> impl Iterator<Item = (u8, u8)> + use<> {
        let layout = self.group.layout();
        let (sites, partitions) = (layout.sites() as u8, layout.partitions() as u8);
        (0..sites).flat_map(move |site| (0..partitions).map(move |partition| (site, partition)))
    }

    /// How many entries of a server each other site has still to take.
    fn waiting(&self, from: u8, partition: u8) -> impl Iterator<Item = usize> {
        let sites = self.group.layout().sites() as u8;
        (0..sites).filter_map(move |to| self.group.waiting(from, to, partition).ok())
    }

    fn check_capacities(&self) -> Result<(), Broken> {
        let servers_hold = self.servers().all(|(site, partition)| {
            let versions = self.group.table(site, partition).map_or(0, <[_]>::len);
            versions <= MAX_VERSIONS
                && self
                    .waiting(site, partition)
                    .all(|waiting| waiting <= MAX_WAITING)
        });
        let snapshots = self.group.snapshot_count();
        if servers_hold
            && self.group.session_count() <= MAX_SESSIONS
            && snapshots <= MAX_SNAPSHOTS
            && snapshots == self.snapshots.len()
        {
            Ok(())
        } else {
            Err(Broken::TooMany)
        }
    }

    /// For each put in a session's past, a get of its key would show that put or a later version. The latest such put
    /// of each key stands for the others.
    fn check_causes(&mut self) -> Result<(), Broken> {
        for session in 0..self.sessions.len() {
            for index in 0..self.keys.len() {
                let key = self.keys[index];
                let Some(cause) = self.puts.latest_in(&self.sessions[session].past, key) else {
                    continue;
                };
                self.counts.causes += 1;
                let shown = self.group.clone().get(session as u8, key);
                let answer = self.put_of(key, shown.map_err(|_| Broken::GetRefused)?)?;
                if self.puts.is_older(answer, cause) {
                    return Err(Broken::CauseHidden);
                }
            }
        }
        Ok(())
    }

    fn check_snapshots(&mut self) -> Result<(), Broken> {
        for Snapshot {
            ticket, answers, ..
        } in &self.snapshots
        {
            for (&key, &first) in self.keys.iter().zip(answers) {
                self.counts.snapshot_answers += 1;
                if self.would_read(ticket, key)? != first {
                    return Err(Broken::SnapshotMoved);
                }
            }
        }
        Ok(())
    }

    fn would_read(&self, ticket: &Ticket, key: u16) -> Result<Option<PutId>, Broken> {
        let shown = self.group.clone().read(ticket, key);
        self.put_of(key, shown.map_err(|_| Broken::TicketRefused)?)
    }

    fn check_agreement(&mut self) -> Result<(), Broken> {
        let nothing_waits = self
            .servers()
            .all(|(site, partition)| self.waiting(site, partition).all(|waiting| waiting == 0));
        if !nothing_waits || self.puts.len() == 0 {
            return Ok(());
        }
        self.counts.agreements += 1;
        for &key in &self.keys {
            let first = self.latest_held(0, key)?;
            for site in 1..self.group.layout().sites() as u8 {
                if self.latest_held(site, key)? != first {
                    return Err(Broken::SitesDisagree);
                }
            }
        }
        Ok(())
    }

    /// The latest version of a key that any server of a site holds.
    fn latest_held(&self, site: u8, key: u16) -> Result<Option<PutId>, Broken> {
        let latest = (0..self.group.layout().partitions() as u8)
            .filter_map(|partition| self.group.table(site, partition).ok())
            .flatten()
            .filter(|version| version.key == key)
            .max_by_key(|version| (version.stamp, version.source));
        let shown = latest.map(|version| Shown {
            value: version.value,
            stamp: version.stamp,
            source: version.source,
        });
        self.put_of(key, shown)
    }
}
