//! Scripts of full length as a store would meet them: shops write and read prices while updates travel.

use random::Random;
use scripts::{LAST_READING, Script, Value};

use crate::cases::NOW;

const SITES: u8 = 3;
const PARTITIONS: u8 = 2;
const SESSIONS: u8 = 6;
const KEYS: u64 = 12;
const SEED: u64 = 20_260_101;

/// How many calls sessions make between two times at which everything is delivered and tidied.
const CALLS_BETWEEN: usize = 70;

#[derive(Clone, Copy)]
enum Move {
    Put,
    Get,
    View,
    Tell,
    Heartbeat,
    Deliver,
    Report,
    Stabilise,
    Lead,
}

const WEIGHTS: [(u64, Move); 9] = [
    (18, Move::Put),
    (30, Move::Get),
    (8, Move::View),
    (8, Move::Tell),
    (3, Move::Heartbeat),
    (20, Move::Deliver),
    (5, Move::Report),
    (5, Move::Stabilise),
    (3, Move::Lead),
];

/// A script of full length for a clock rule and a kind of mark, by their letters.
pub fn walk(clock: u8, marks: u8) -> Vec<u8> {
    let mut walk = Walk::start(clock, marks);
    while walk.script.len() < price_store::MAX_SCRIPT {
        for _ in 0..CALLS_BETWEEN {
            walk.step();
        }
        walk.settle();
    }
    let mut script = walk.script.into_bytes();
    script.truncate(price_store::MAX_SCRIPT);
    script
}

struct Walk {
    random: Random,
    script: Script,
    now: u64,
    /// How many entries wait, by sender, receiver and partition.
    waiting: [[[u8; PARTITIONS as usize]; SITES as usize]; SITES as usize],
}

fn servers() -> impl Iterator<Item = (u8, u8)> {
    (0..SITES).flat_map(|site| (0..PARTITIONS).map(move |partition| (site, partition)))
}

fn others(site: u8) -> impl Iterator<Item = u8> {
    (0..SITES).filter(move |&other| other != site)
}

impl Walk {
    fn start(clock: u8, marks: u8) -> Self {
        let mut walk = Self {
            random: Random::new(SEED),
            script: Script::new(SITES, PARTITIONS, clock, marks),
            now: NOW,
            waiting: Default::default(),
        };
        for session in 0..SESSIONS {
            walk.add(|script| script.session(session % SITES));
        }
        walk
    }

    fn add(&mut self, add: impl FnOnce(Script) -> Script) {
        self.script = add(std::mem::take(&mut self.script));
    }

    fn key(&mut self) -> u16 {
        self.random.below(KEYS) as u16
    }

    fn value(&mut self) -> Value {
        let amount = self.random.below(10_000) as u32;
        let basis = amount % 2;
        self.random
            .pick(&[(0, 0), (1, amount), (1, amount), (2, amount), (3, basis)])
    }

    fn step(&mut self) {
        let next = self.random.weighted(&WEIGHTS);
        let site = self.random.byte_below(SITES);
        let partition = self.random.byte_below(PARTITIONS);
        let session = self.random.byte_below(SESSIONS);
        match next {
            Move::Put => self.put(session),
            Move::Get => {
                let key = self.key();
                self.add(|script| script.get(session, key));
            }
            Move::View => {
                let (first, second) = (self.key(), self.key());
                self.add(|script| script.view(session, partition, first, second));
            }
            Move::Tell => self.tell(site, partition),
            Move::Heartbeat => self.heartbeat(site, partition),
            Move::Deliver => self.deliver_some(site, partition),
            Move::Report => self.add(|script| script.report(site, partition)),
            Move::Stabilise => self.add(|script| script.stabilise(site, partition)),
            Move::Lead => self.add(|script| script.lead(site, partition)),
        }
    }

    fn tell(&mut self, site: u8, partition: u8) {
        self.now = (self.now + 1 + self.random.below(20)).min(LAST_READING);
        let now = self.now;
        self.add(|script| script.tell(site, partition, now));
    }

    /// The server's clock goes on first, since a raw clock has no second stamp for one reading.
    fn put(&mut self, session: u8) {
        let (key, value) = (self.key(), self.value());
        let site = session % SITES;
        let partition = (key % u16::from(PARTITIONS)) as u8;
        self.tell(site, partition);
        self.add(|script| script.put(session, key, value));
        self.sent(site, partition);
    }

    fn heartbeat(&mut self, site: u8, partition: u8) {
        self.tell(site, partition);
        self.add(|script| script.heartbeat(site, partition));
        self.sent(site, partition);
    }

    fn sent(&mut self, site: u8, partition: u8) {
        for to in others(site) {
            *self.line(site, to, partition) += 1;
        }
    }

    fn line(&mut self, from: u8, to: u8, partition: u8) -> &mut u8 {
        &mut self.waiting[usize::from(from)][usize::from(to)][usize::from(partition)]
    }

    fn deliver_some(&mut self, from: u8, partition: u8) {
        let to = (from + 1 + self.random.byte_below(SITES - 1)) % SITES;
        let most = 1 + self.random.byte_below(4);
        self.deliver(from, to, partition, most);
    }

    /// Delivers what waits, up to so many entries.
    fn deliver(&mut self, from: u8, to: u8, partition: u8, most: u8) {
        let waiting = self.line(from, to, partition);
        let times = most.min(*waiting);
        *waiting -= times;
        self.add(|script| {
            script.repeat(times.into(), |script| script.deliver(from, to, partition))
        });
    }

    /// Everything that waits goes over, every server takes it as stable, and old versions go.
    fn settle(&mut self) {
        for (site, partition) in servers() {
            self.heartbeat(site, partition);
        }
        for (from, partition) in servers() {
            for to in others(from) {
                self.deliver(from, to, partition, u8::MAX);
            }
        }
        self.at_each_server(Script::report);
        self.at_each_server(Script::stabilise);
        self.at_each_server(Script::tidy);
    }

    fn at_each_server(&mut self, command: fn(Script, u8, u8) -> Script) {
        for (site, partition) in servers() {
            self.add(|script| command(script, site, partition));
        }
    }
}
