//! Generated runs: random calls on a small group with few keys, so that they have much to do with each other.

use random::Random;
use second::{ClockRule, Group, Layout, MarkKind, Shortcut, UncheckedValue};

use crate::observer::{Broken, Call, Counts, Observer};

/// A run that broke something.
#[derive(Clone, Copy, Debug)]
pub struct Failure {
    /// The number of the call, from 1.
    pub call_number: u64,
    pub call: Call,
    pub broken: Broken,
}

/// What a run does next.
#[derive(Clone, Copy)]
enum Move {
    OpenSession,
    Tell,
    Put,
    Get,
    Heartbeat,
    CatchUp,
    Deliver,
    DeliverAll,
    Report,
    ReportSite,
    Stabilise,
    OpenSnapshot,
    Read,
    Close,
    Tidy,
    Lead,
}

/// How often a run makes each move.
type Weights = [(u64, Move); 16];

const EVEN: Weights = [
    (1, Move::OpenSession),
    (6, Move::Tell),
    (20, Move::Put),
    (20, Move::Get),
    (6, Move::Heartbeat),
    (1, Move::CatchUp),
    (18, Move::Deliver),
    (1, Move::DeliverAll),
    (4, Move::Report),
    (3, Move::ReportSite),
    (7, Move::Stabilise),
    (3, Move::OpenSnapshot),
    (6, Move::Read),
    (3, Move::Close),
    (2, Move::Tidy),
    (1, Move::Lead),
];

/// Servers hear much of each other, but few of them take it as stable.
const MUCH_RECEIVED: Weights = [
    (1, Move::OpenSession),
    (4, Move::Tell),
    (24, Move::Put),
    (30, Move::Get),
    (2, Move::Heartbeat),
    (5, Move::CatchUp),
    (10, Move::Deliver),
    (5, Move::DeliverAll),
    (2, Move::Report),
    (7, Move::ReportSite),
    (6, Move::Stabilise),
    (1, Move::OpenSnapshot),
    (2, Move::Read),
    (1, Move::Close),
    (1, Move::Tidy),
    (1, Move::Lead),
];

const MANY_SNAPSHOTS: Weights = [
    (1, Move::OpenSession),
    (6, Move::Tell),
    (16, Move::Put),
    (8, Move::Get),
    (4, Move::Heartbeat),
    (3, Move::CatchUp),
    (12, Move::Deliver),
    (3, Move::DeliverAll),
    (2, Move::Report),
    (5, Move::ReportSite),
    (7, Move::Stabilise),
    (6, Move::OpenSnapshot),
    (8, Move::Read),
    (4, Move::Close),
    (7, Move::Tidy),
    (1, Move::Lead),
];

/// Makes the run of a number, with a planted fault or none.
pub fn run(seed: u64, number: u64, shortcut: Shortcut) -> Result<Counts, Failure> {
    let mut random = Random::part(seed, number);
    let mut run = Run::start(&mut random, number, shortcut);
    let weights = run.random.pick(&[EVEN, MUCH_RECEIVED, MANY_SNAPSHOTS]);
    let length = 60 + run.random.below(141);
    let outcome = run.make_calls(&weights, length);
    let counts = run.observer.counts;
    outcome.map(|()| counts)
}

struct Run<'a> {
    random: &'a mut Random,
    observer: Observer,
    keys: Vec<u16>,
    sites: u8,
    partitions: u8,
    clock: ClockRule,
    sessions: u8,
    busy_site: u8,
    /// About the present time.
    now: u64,
    /// How far the clock of each server runs ahead.
    drift: [[u64; 4]; 4],
    /// A line, from site to site, on which entries are late.
    slow_line: Option<(u8, u8)>,
}

type Step = Result<(), Failure>;

impl<'a> Run<'a> {
    fn start(random: &'a mut Random, number: u64, shortcut: Shortcut) -> Self {
        let clock = [ClockRule::Raw, ClockRule::Hybrid][number as usize % 2];
        let kind = [MarkKind::One, MarkKind::Each][number as usize / 2 % 2];
        let sites = random.weighted(&[(5, 2), (6, 3), (1, 4)]);
        let partitions = random.weighted(&[(2, 1), (5, 2), (4, 3), (1, 4)]);
        let layout = Layout::check(sites, partitions).expect("a layout within the rules");
        let group = Group::with_shortcut(layout, clock, kind, shortcut);
        let keys: Vec<u16> = (0..random.pick(&[4, 5, 6])).collect();
        Self {
            observer: Observer::new(group, keys.clone()),
            keys,
            sites,
            partitions,
            clock,
            sessions: 0,
            busy_site: 0,
            now: 10,
            drift: std::array::from_fn(|_| {
                std::array::from_fn(|_| random.below(4) * random.below(4))
            }),
            slow_line: slow_line(random, sites),
            random,
        }
    }

    fn make_calls(&mut self, weights: &Weights, length: u64) -> Step {
        for site in 0..self.sites {
            self.open_session(site)?;
        }
        for _ in 0..self.random.below(4) {
            let site = self.site();
            self.open_session(site)?;
        }
        while self.observer.counts.calls < length {
            let next = self.random.weighted(weights);
            self.make(next)?;
        }
        Ok(())
    }

    fn call(&mut self, call: Call) -> Step {
        self.observer.call(call).map_err(|broken| Failure {
            call_number: self.observer.counts.calls,
            call,
            broken,
        })
    }

    fn site(&mut self) -> u8 {
        self.random.byte_below(self.sites)
    }

    fn partition(&mut self) -> u8 {
        self.random.byte_below(self.partitions)
    }

    /// Mostly a session that is open, and more often than not one of the busy site.
    fn session(&mut self) -> u8 {
        if self.random.percent(60) {
            let sessions = 0..self.sessions.min(8);
            let busy =
                sessions.filter(|&session| self.observer.site_of(session) == Some(self.busy_site));
            let busy: Vec<u8> = busy.collect();
            if !busy.is_empty() {
                return self.random.pick(&busy);
            }
        }
        let refused = u8::from(self.random.percent(1));
        self.random.byte_below(self.sessions.min(8) + refused)
    }

    fn key(&mut self) -> u16 {
        self.random.pick(&self.keys)
    }

    fn key_of(&mut self, partition: u8) -> u16 {
        let partitions = u16::from(self.partitions);
        let mut keys = self.keys.clone();
        keys.retain(|key| key % partitions == partition.into());
        self.random.pick(&keys)
    }

    fn open_session(&mut self, site: u8) -> Step {
        self.sessions += 1;
        self.call(Call::OpenSession { site })
    }

    fn make(&mut self, next: Move) -> Step {
        let (site, partition) = (self.site(), self.partition());
        match next {
            Move::OpenSession => self.open_session(site),
            Move::Tell => self.tell(site, partition),
            Move::Put => {
                let (session, key) = (self.session(), self.key());
                self.put(session, key)
            }
            Move::Get => {
                let (session, key) = (self.session(), self.key());
                self.call(Call::Get { session, key })
            }
            Move::Heartbeat => self.heartbeat(site, partition),
            Move::CatchUp => self.catch_up(site, partition),
            Move::Deliver => self.deliver(),
            Move::DeliverAll => self.deliver_all(|_| true),
            Move::Report => self.call(Call::Report { site, partition }),
            Move::ReportSite => self.report_site(site),
            Move::Stabilise => self.call(Call::Stabilise { site, partition }),
            Move::OpenSnapshot => {
                let session = self.session();
                self.call(Call::OpenSnapshot { session, partition })
            }
            Move::Read => self.read(),
            Move::Close => self.close(),
            Move::Tidy => self.call(Call::Tidy { site, partition }),
            Move::Lead => self.call(Call::Lead { site, partition }),
        }
    }

    fn tell(&mut self, site: u8, partition: u8) -> Step {
        self.now += self.random.below(3);
        let drift = self.drift[usize::from(site)][usize::from(partition)];
        let behind = if self.random.percent(5) { 3 } else { 0 };
        let reading = self.now + drift - behind;
        self.call(Call::Tell {
            site,
            partition,
            reading,
        })
    }

    /// A raw clock makes no stamp before its reading has gone up.
    fn ready_clock(&mut self, site: u8, partition: u8) -> Step {
        let chance = match self.clock {
            ClockRule::Raw => 85,
            ClockRule::Hybrid => 20,
        };
        if self.random.percent(chance) {
            self.now += 1;
            self.tell(site, partition)?;
        }
        Ok(())
    }

    fn put(&mut self, session: u8, key: u16) -> Step {
        if !self.observer.has_room_for_puts() {
            return Ok(());
        }
        let partition = (key % u16::from(self.partitions)) as u8;
        if let Some(site) = self.observer.site_of(session) {
            self.ready_clock(site, partition)?;
        }
        let value = value(self.random);
        self.call(Call::Put {
            session,
            key,
            value,
        })
    }

    fn heartbeat(&mut self, site: u8, partition: u8) -> Step {
        self.ready_clock(site, partition)?;
        self.call(Call::Heartbeat { site, partition })
    }

    /// A site hears all that others have to say, and one of its servers takes it as stable. The sessions of the site
    /// are the next to make calls.
    fn catch_up(&mut self, site: u8, partition: u8) -> Step {
        self.busy_site = site;
        for other in (0..self.sites).filter(|&other| other != site) {
            for partition in 0..self.partitions {
                self.heartbeat(other, partition)?;
            }
        }
        self.deliver_all(|to| to == site)?;
        self.report_site(site)?;
        self.call(Call::Stabilise { site, partition })?;
        match self.random.below(3) {
            0 => self.relay(partition),
            1 => self.tidy_and_open(site, partition),
            _ => Ok(()),
        }
    }

    /// A session gets a key of a partition and puts any key, which another session gets.
    fn relay(&mut self, partition: u8) -> Step {
        let (writer, reader) = (self.session(), self.session());
        let seen = self.key_of(partition);
        let key = self.key();
        self.call(Call::Get {
            session: writer,
            key: seen,
        })?;
        self.put(writer, key)?;
        self.call(Call::Get {
            session: reader,
            key,
        })
    }

    /// A server is tidied, and a snapshot opened at any server.
    fn tidy_and_open(&mut self, site: u8, partition: u8) -> Step {
        self.call(Call::Tidy { site, partition })?;
        let (session, partition) = (self.session(), self.partition());
        self.call(Call::OpenSnapshot { session, partition })
    }

    fn deliver(&mut self) -> Step {
        let lines = self.lines_in_time(85);
        let (from, to, partition) = if lines.is_empty() || self.random.percent(2) {
            (self.site(), self.site(), self.partition())
        } else {
            self.random.pick(&lines)
        };
        self.call(Call::Deliver {
            from,
            to,
            partition,
        })
    }

    /// The lines on which an entry waits, but without the slow one at this chance in a hundred.
    fn lines_in_time(&mut self, chance: u64) -> Vec<(u8, u8, u8)> {
        let mut lines = self.lines_in_use();
        if self.random.percent(chance) {
            lines.retain(|&(from, to, _)| Some((from, to)) != self.slow_line);
        }
        lines
    }

    /// The lines on which an entry waits: from, to and partition of each.
    fn lines_in_use(&self) -> Vec<(u8, u8, u8)> {
        let mut lines = Vec::new();
        for from in 0..self.sites {
            for to in 0..self.sites {
                for partition in 0..self.partitions {
                    let waiting = self.observer.group().waiting(from, to, partition);
                    if waiting.is_ok_and(|waiting| waiting > 0) {
                        lines.push((from, to, partition));
                    }
                }
            }
        }
        lines
    }

    /// Everything that waits for these sites goes over, in any order of the lines, unless a full table is in the way.
    fn deliver_all(&mut self, takes: impl Fn(u8) -> bool) -> Step {
        let late = if self.random.percent(75) { 100 } else { 0 };
        for _ in 0..100 {
            let mut lines = self.lines_in_time(late);
            lines.retain(|&(_, to, _)| takes(to));
            if lines.is_empty() {
                break;
            }
            let (from, to, partition) = self.random.pick(&lines);
            self.call(Call::Deliver {
                from,
                to,
                partition,
            })?;
        }
        Ok(())
    }

    fn report_site(&mut self, site: u8) -> Step {
        for partition in 0..self.partitions {
            self.call(Call::Report { site, partition })?;
        }
        Ok(())
    }

    fn read(&mut self) -> Step {
        let open = self.observer.open_snapshots();
        if open == 0 {
            return Ok(());
        }
        let (snapshot, key) = (self.random.index(open), self.key());
        self.call(Call::Read { snapshot, key })
    }

    fn close(&mut self) -> Step {
        let open = self.observer.open_snapshots();
        if open == 0 {
            return Ok(());
        }
        let snapshot = self.random.index(open);
        self.call(Call::Close { snapshot })
    }
}

/// With three sites or more, a late update can be overtaken by what depends on it.
fn slow_line(random: &mut Random, sites: u8) -> Option<(u8, u8)> {
    let chance = if sites > 2 { 80 } else { 20 };
    let from = random.byte_below(sites);
    let to = (from + 1 + random.byte_below(sites - 1)) % sites;
    random.percent(chance).then_some((from, to))
}

fn value(random: &mut Random) -> UncheckedValue {
    let cents = random.below(1000) as u32;
    let basis = random.below(2) as u32;
    let hundredths = random.below(10_001) as u32;
    let (kind, amount) = random.weighted(&[
        (4, (1, cents)),
        (3, (2, hundredths)),
        (2, (3, basis)),
        (1, (0, 0)),
    ]);
    UncheckedValue { kind, amount }
}
