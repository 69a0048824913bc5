//! Generated scripts: valid ones, damaged ones and hostile ones, of all lengths.

use random::Random;
use scripts::{LAST_READING, Script, Value};

const MAX_SCRIPT: usize = second::MAX_SCRIPT;

/// One script of so many has the full length.
const FULL_LENGTH_EVERY: u64 = 400;

/// The letters of a script.
const LETTERS: &[u8; 12] = b"LSTPGHDRUCQV";

/// Scripts that follow from a seed and a number.
pub struct Generated {
    seed: u64,
    count: u64,
}

impl Generated {
    pub fn new(seed: u64, count: u64) -> Self {
        Self { seed, count }
    }

    pub fn count(&self) -> u64 {
        self.count
    }

    /// The script of a number, and its class.
    pub fn script(&self, number: u64) -> (&'static str, Vec<u8>) {
        let mut random = Random::part(self.seed, number);
        let random = &mut random;
        if number % FULL_LENGTH_EVERY == FULL_LENGTH_EVERY - 1 {
            return full_length(random, number / FULL_LENGTH_EVERY);
        }
        let length = length(random);
        match number % 10 {
            0..=5 => ("valid", walk(random, length)),
            6 | 7 => {
                let script = walk(random, length);
                ("damaged", damaged(random, script))
            }
            _ => ("hostile", hostile(random, length)),
        }
    }
}

fn length(random: &mut Random) -> usize {
    let (least, most) = random.weighted(&[
        (5, (5, 60)),
        (60, (60, 900)),
        (30, (900, 4000)),
        (5, (4000, 12_000)),
    ]);
    least + random.index(most - least)
}

fn full_length(random: &mut Random, number: u64) -> (&'static str, Vec<u8>) {
    let length = MAX_SCRIPT + 20;
    match number % 4 {
        0 | 1 => {
            let mut script = walk(random, length);
            script.truncate(MAX_SCRIPT);
            ("valid of full length", script)
        }
        2 => ("valid of more than full length", walk(random, length)),
        _ => {
            let mut script = steady(random, length);
            script.truncate(MAX_SCRIPT);
            ("hostile of full length", script)
        }
    }
}

/// What a walk does next.
#[derive(Clone, Copy)]
enum Move {
    Session,
    Tell,
    Put,
    Get,
    Heartbeat,
    Deliver,
    Report,
    Stabilise,
    Tidy,
    Lead,
    View,
    Settle,
    Refused,
}

/// How often a walk makes each move.
type Weights = [(u64, Move); 13];

const fn weights(of: [u64; 13]) -> Weights {
    use Move::{
        Deliver, Get, Heartbeat, Lead, Put, Refused, Report, Session, Settle, Stabilise, Tell,
        Tidy, View,
    };
    [
        (of[0], Session),
        (of[1], Tell),
        (of[2], Put),
        (of[3], Get),
        (of[4], Heartbeat),
        (of[5], Deliver),
        (of[6], Report),
        (of[7], Stabilise),
        (of[8], Tidy),
        (of[9], Lead),
        (of[10], View),
        (of[11], Settle),
        (of[12], Refused),
    ]
}

const BALANCED: Weights = weights([1, 6, 18, 16, 7, 22, 8, 8, 3, 2, 7, 1, 2]);
const MANY_PUTS: Weights = weights([1, 8, 35, 10, 6, 30, 4, 4, 1, 1, 4, 0, 1]);
const MANY_VIEWS: Weights = weights([1, 6, 15, 12, 8, 20, 10, 12, 2, 1, 20, 2, 1]);
const TIDY: Weights = weights([1, 6, 16, 12, 4, 20, 8, 8, 8, 1, 6, 5, 1]);

/// A walk over all commands, in a small group with few keys.
struct Walk<'a> {
    random: &'a mut Random,
    script: Script,
    sites: u8,
    partitions: u8,
    raw_clock: bool,
    sessions: u8,
    keys: Vec<u16>,
    /// About the present time.
    now: u64,
    /// How far each site's clock runs ahead.
    drift: [u64; 4],
    /// A line, from site to site, on which updates are late.
    slow_line: Option<(u8, u8)>,
}

/// A valid script of about so many bytes.
fn walk(random: &mut Random, length: usize) -> Vec<u8> {
    let full_length = length > MAX_SCRIPT;
    let weights = if full_length {
        TIDY
    } else {
        random.pick(&[BALANCED, BALANCED, MANY_PUTS, MANY_VIEWS, TIDY])
    };
    let mut walk = Walk::start(random);
    while walk.script.len() < length {
        let next = walk.random.weighted(&weights);
        walk.make(next);
    }
    walk.script.into_bytes()
}

impl<'a> Walk<'a> {
    fn start(random: &'a mut Random) -> Self {
        let sites = random.weighted(&[(5, 2), (4, 3), (1, 4)]);
        let partitions = random.weighted(&[(3, 1), (5, 2), (2, 3), (1, 4)]);
        let clock = random.pick(b"RH");
        let marks = random.pick(b"OE");
        let first_key = random.pick(&[0, 0, 1, 500, u16::MAX - 7]);
        let key_count = 1 + random.below(6) as u16;
        let keys = (first_key..first_key + key_count).collect();
        let now = random.weighted(&[(1, 0), (8, 100), (1, LAST_READING - 60)]);
        let drift = std::array::from_fn(|_| random.below(4) * random.below(4));
        let slow_line = slow_line(random, sites);
        let script = Script::new(sites, partitions, clock, marks);
        let mut walk = Self {
            random,
            script,
            sites,
            partitions,
            raw_clock: clock == b'R',
            sessions: 0,
            keys,
            now,
            drift,
            slow_line,
        };
        for site in 0..walk.sites {
            walk.open_session(site);
        }
        walk
    }

    fn add(&mut self, add: impl FnOnce(Script) -> Script) {
        self.script = add(std::mem::take(&mut self.script));
    }

    fn site(&mut self) -> u8 {
        self.random.byte_below(self.sites)
    }

    fn partition(&mut self) -> u8 {
        self.random.byte_below(self.partitions)
    }

    fn session(&mut self) -> u8 {
        self.random.byte_below(self.sessions.clamp(1, 8))
    }

    fn key(&mut self) -> u16 {
        self.random.pick(&self.keys)
    }

    fn open_session(&mut self, site: u8) {
        self.sessions = self.sessions.saturating_add(1);
        self.add(|script| script.session(site));
    }

    fn make(&mut self, next: Move) {
        let (site, partition, session) = (self.site(), self.partition(), self.session());
        match next {
            Move::Session => self.open_session(site),
            Move::Tell => self.tell(site, partition),
            Move::Put => self.put(session),
            Move::Get => {
                let key = self.key();
                self.add(|script| script.get(session, key));
            }
            Move::Heartbeat => {
                self.ready_clock(site, partition);
                self.add(|script| script.heartbeat(site, partition));
            }
            Move::Deliver => self.deliver(site, partition),
            Move::Report => self.add(|script| script.report(site, partition)),
            Move::Stabilise => self.add(|script| script.stabilise(site, partition)),
            Move::Tidy => self.add(|script| script.tidy(site, partition)),
            Move::Lead => self.add(|script| script.lead(site, partition)),
            Move::View => {
                let (first, second) = (self.key(), self.key());
                self.add(|script| script.view(session, partition, first, second));
            }
            Move::Settle => self.settle(),
            Move::Refused => self.refused(site, partition, session),
        }
    }

    fn tell(&mut self, site: u8, partition: u8) {
        self.now += self.random.below(4);
        let behind = if self.random.percent(5) { 3 } else { 0 };
        let drifted = self.now + self.drift[usize::from(site)];
        let reading = drifted.saturating_sub(behind).min(LAST_READING);
        self.add(|script| script.tell(site, partition, reading));
    }

    /// A raw clock makes no stamp before its reading has gone up.
    fn ready_clock(&mut self, site: u8, partition: u8) {
        let chance = if self.raw_clock { 85 } else { 15 };
        if self.random.percent(chance) {
            self.now += 1;
            self.tell(site, partition);
        }
    }

    fn put(&mut self, session: u8) {
        let key = self.key();
        let site = session % self.sites;
        let partition = (usize::from(key) % usize::from(self.partitions)) as u8;
        self.ready_clock(site, partition);
        let value = value(self.random);
        self.add(|script| script.put(session, key, value));
    }

    fn deliver(&mut self, from: u8, partition: u8) {
        let to = (from + 1 + self.random.byte_below(self.sites - 1)) % self.sites;
        if self.is_late(from, to, 90) {
            return;
        }
        let times = 1 + self.random.index(3);
        self.add(|script| script.repeat(times, |script| script.deliver(from, to, partition)));
    }

    /// Whether a line is slow and, as with this chance in a hundred, late this time.
    fn is_late(&mut self, from: u8, to: u8, chance: u64) -> bool {
        self.slow_line == Some((from, to)) && self.random.percent(chance)
    }

    /// Everything that waits goes over, and every server takes it as stable.
    fn settle(&mut self) {
        let (sites, partitions) = (self.sites, self.partitions);
        let servers =
            move || (0..sites).flat_map(move |site| (0..partitions).map(move |p| (site, p)));
        self.now += 1;
        for (site, partition) in servers() {
            self.tell(site, partition);
            self.add(|script| script.heartbeat(site, partition));
        }
        let times = 1 + self.random.index(17);
        for (from, partition) in servers() {
            for to in (0..sites).filter(|&to| to != from) {
                if self.is_late(from, to, 80) {
                    continue;
                }
                self.add(|script| {
                    script.repeat(times, |script| script.deliver(from, to, partition))
                });
            }
        }
        for (site, partition) in servers() {
            self.add(|script| script.report(site, partition));
        }
        for (site, partition) in servers() {
            self.add(|script| script.stabilise(site, partition));
        }
        for (site, partition) in servers() {
            if self.random.percent(50) {
                self.add(|script| script.tidy(site, partition));
            }
        }
    }

    /// A command that is refused for one of its operands.
    fn refused(&mut self, site: u8, partition: u8, session: u8) {
        let key = self.key();
        let missing = self.sites + self.random.byte_below(3);
        let no_partition = self.partitions + self.random.byte_below(3);
        let past = LAST_READING + 1 + self.random.below(3);
        let unlawful = self.random.pick(&[(0, 1), (2, 10_001), (3, 2), (4, 0)]);
        match self.random.below(12) {
            0 => self.add(|script| script.session(missing)),
            1 => self.add(|script| script.tell(site, no_partition, past)),
            2 => self.add(|script| script.tell(site, partition, past)),
            3 => self.add(|script| script.put(session, key, unlawful)),
            4 => self.add(|script| script.put(session + 8, key, unlawful)),
            5 => self.add(|script| script.get(session + 8, key)),
            6 => self.add(|script| script.heartbeat(missing, partition)),
            7 => self.add(|script| script.deliver(site, site, partition)),
            8 => self.add(|script| script.deliver(site, missing, partition)),
            9 => self.add(|script| script.view(session, no_partition, key, key)),
            10 => self.add(|script| script.view(session + 8, partition, key, key)),
            _ => self.add(|script| script.tidy(missing, no_partition)),
        }
    }
}

/// With three sites or more, a late update can be overtaken by what depends on it.
fn slow_line(random: &mut Random, sites: u8) -> Option<(u8, u8)> {
    let chance = if sites > 2 { 60 } else { 10 };
    let from = random.byte_below(sites);
    let to = (from + 1 + random.byte_below(sites - 1)) % sites;
    random.percent(chance).then_some((from, to))
}

fn value(random: &mut Random) -> Value {
    let cents = random.below(100_000) as u32;
    let hundredths = random.pick(&[0, 1200, 9_999, 10_000]);
    let basis = random.below(2) as u32;
    random.weighted(&[
        (5, (1, cents)),
        (3, (2, hundredths)),
        (2, (3, basis)),
        (1, (0, 0)),
    ])
}

/// A script with a few bytes changed, cut away or added.
fn damaged(random: &mut Random, mut script: Vec<u8>) -> Vec<u8> {
    for _ in 0..1 + random.below(4) {
        if script.is_empty() {
            break;
        }
        let at = damaged_place(random, script.len());
        match random.below(7) {
            0 => script[at] ^= 1 << random.below(8),
            1 => script[at] = random.byte(),
            2 => script[at] = random.pick(&[0, 1, 0x7F, 0x80, 0xFF]),
            3 => script.truncate(at),
            4 => script.insert(at, random.byte()),
            5 => {
                script.remove(at);
            }
            _ => {
                let end = (at + random.index(30)).min(script.len());
                let copy = script[at..end].to_vec();
                let to = random.index(script.len() + 1);
                script.splice(to..to, copy);
            }
        }
    }
    script
}

/// Most damage lies past the beginning, so that something happens before it.
fn damaged_place(random: &mut Random, length: usize) -> usize {
    let early = random.percent(15);
    let first = if early { 0 } else { 5.min(length - 1) };
    first + random.index(length - first)
}

/// Random commands with extreme operands; now and then one that ends the listing.
fn hostile(random: &mut Random, length: usize) -> Vec<u8> {
    if random.percent(10) {
        return (0..length).map(|_| random.byte()).collect();
    }
    let mut script = hostile_start(random);
    while script.len() < length {
        if random.below(400) == 0 {
            script.push(random.byte());
        } else {
            hostile_command(random, &mut script, 0);
        }
    }
    script
}

/// Hostile commands none of which ends the listing.
fn steady(random: &mut Random, length: usize) -> Vec<u8> {
    let mut script = vec![
        b'L',
        2 + random.byte_below(3),
        1 + random.byte_below(4),
        random.pick(b"RH"),
        random.pick(b"OE"),
    ];
    while script.len() < length {
        hostile_command(random, &mut script, 1);
    }
    script
}

fn hostile_start(random: &mut Random) -> Vec<u8> {
    let mut script = vec![
        b'L',
        random.pick(&[2, 2, 2, 3, 3, 4, 1, 5]),
        random.pick(&[1, 1, 2, 2, 3, 4, 4, 0]),
        random.pick(b"RHRHRHRHRHRHr"),
        random.pick(b"OEOEOEOEOEOEe"),
    ];
    if random.percent(5) {
        script.clear();
    }
    script
}

/// A command with one of the letters from the given one on, and random operands of the right width.
fn hostile_command(random: &mut Random, script: &mut Vec<u8>, first_letter: usize) {
    let rare = random.percent(1);
    let first = if rare { first_letter } else { 1 };
    let letter = LETTERS[first + random.index(LETTERS.len() - first)];
    script.push(letter);
    let pair = |random: &mut Random, script: &mut Vec<u8>| {
        script.push(small(random));
        script.push(small(random));
    };
    match letter {
        b'L' => script.extend([2, 1, b'R', b'O']),
        b'S' => script.push(small(random)),
        b'T' => {
            pair(random, script);
            script.extend_from_slice(&reading(random).to_be_bytes()[2..]);
        }
        b'P' => {
            script.push(small(random));
            script.extend(key(random).to_be_bytes());
            script.push(random.pick(&[0, 1, 1, 1, 2, 3, 4, 255]));
            script.extend(amount(random).to_be_bytes());
        }
        b'G' => {
            script.push(small(random));
            script.extend(key(random).to_be_bytes());
        }
        b'D' => {
            pair(random, script);
            script.push(small(random));
        }
        b'V' => {
            pair(random, script);
            script.extend(key(random).to_be_bytes());
            script.extend(key(random).to_be_bytes());
        }
        _ => pair(random, script),
    }
}

fn small(random: &mut Random) -> u8 {
    random.weighted(&[
        (30, 0),
        (25, 1),
        (8, 2),
        (4, 3),
        (2, 4),
        (1, 8),
        (1, 128),
        (1, 255),
    ])
}

fn key(random: &mut Random) -> u16 {
    random.pick(&[0, 1, 2, 3, 0, 1, 2, 3, 255, 256, 0x7FFF, 0x8000, u16::MAX])
}

fn amount(random: &mut Random) -> u32 {
    random.pick(&[
        0,
        0,
        1,
        1,
        2,
        9_999,
        10_000,
        10_001,
        65_536,
        1 << 31,
        u32::MAX,
    ])
}

fn reading(random: &mut Random) -> u64 {
    match random.below(8) {
        0 => LAST_READING - random.below(2),
        1 => LAST_READING + 1 + random.below(2),
        2 => (1 << 48) - 1,
        3 => random.next() >> 16,
        4 => random.next() >> random.pick(&[18, 30, 40, 56]),
        _ => random.below(200),
    }
}
