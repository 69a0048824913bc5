//! Scripts at the edges of the rules.

use scripts::{LAST_READING, Script, Value};

use crate::examples;

const CLOCKS: [u8; 2] = *b"RH";
const MARKS: [u8; 2] = *b"OE";
const PRICE: Value = (1, 1999);
const UNLAWFUL: Value = (4, 0);
const MAX_SCRIPT: usize = second::MAX_SCRIPT;

/// The letters of a script, each with its operands in a group of two sites and one partition.
const COMMANDS: [&[u8]; 12] = [
    b"L\x02\x01HE",
    b"S\x00",
    b"T\x00\x00\x00\x00\x00\x00\x00\x64",
    b"P\x00\x00\x02\x01\x00\x00\x00\x05",
    b"G\x00\x00\x02",
    b"H\x00\x00",
    b"D\x00\x01\x00",
    b"R\x00\x00",
    b"U\x00\x00",
    b"C\x00\x00",
    b"Q\x00\x00",
    b"V\x00\x00\x00\x02\x00\x03",
];

/// A script and what it is about.
pub struct Edge {
    pub name: String,
    pub script: Vec<u8>,
}

/// Every edge.
pub fn all() -> Vec<Edge> {
    let mut edges = Edges::default();
    edges.add("empty", Script::default());
    edges.letters();
    edges.short_commands();
    edges.layouts();
    edges.lengths();
    for clock in CLOCKS {
        for marks in MARKS {
            edges.for_group(clock, marks);
        }
    }
    edges.example_groups();
    edges.0
}

#[derive(Default)]
struct Edges(Vec<Edge>);

impl Edges {
    fn add(&mut self, name: impl Into<String>, script: Script) {
        self.0.push(Edge {
            name: name.into(),
            script: script.into_bytes(),
        });
    }

    fn letters(&mut self) {
        for letter in 0..=u8::MAX {
            let name = format!("byte {letter} as a letter");
            let tail = [&[letter][..], &[0; 8]].concat();
            self.add(name.clone(), Script::default().raw(&tail));
            let start = Script::new(2, 1, b'H', b'E').session(0);
            self.add(name, start.raw(&tail));
        }
    }

    fn short_commands(&mut self) {
        let start = Script::new(2, 1, b'H', b'E').session(0);
        for command in COMMANDS {
            for length in 1..=command.len() {
                let name = format!("{} cut at {length}", char::from(command[0]));
                let cut = &command[..length];
                self.add(name.clone(), Script::default().raw(cut));
                self.add(name.clone(), start.clone().raw(cut));
                self.add(name, start.clone().raw(command).raw(cut));
            }
        }
    }

    fn layouts(&mut self) {
        const COUNTS: [u8; 8] = [0, 1, 2, 3, 4, 5, 6, 255];
        for sites in COUNTS {
            for partitions in COUNTS {
                for (clock, marks) in [(b'R', b'E'), (b'H', b'O'), (b'H', b'r')] {
                    let layout = Script::new(sites, partitions, clock, marks);
                    let servers = (0..5).fold(layout, |script, site| {
                        (0..5).fold(script, |script, partition| script.lead(site, partition))
                    });
                    let sessions = (0..5).fold(servers, Script::session);
                    self.add(format!("layout {sites} {partitions}"), sessions);
                }
            }
        }
        for clock in *b"RHrhOE\x00\xff" {
            for marks in *b"OEoeRH\x00\xff" {
                let script = Script::new(2, 2, clock, marks).session(0);
                self.add(format!("layout letters {clock} {marks}"), script);
            }
        }
        let again = Script::new(2, 2, b'R', b'O').session(0);
        self.add(
            "layout again",
            again.clone().layout(2, 2, b'R', b'O').session(0),
        );
        self.add(
            "layout again, wrong",
            again.layout(9, 2, b'R', b'O').session(0),
        );
    }

    /// Scripts as long as a script can be, a little shorter, and longer, cut at each byte of several commands.
    fn lengths(&mut self) {
        let filler = Script::new(2, 1, b'H', b'O').session(0);
        for (name, command) in [
            ("Q", &COMMANDS[10]),
            ("V", &COMMANDS[11]),
            ("P", &COMMANDS[3]),
        ] {
            for shift in 0..command.len() {
                let start = filler.clone().repeat(shift, |script| script.raw(b"S\x09"));
                for length in [MAX_SCRIPT - 1, MAX_SCRIPT, MAX_SCRIPT + 1, MAX_SCRIPT + 9] {
                    if shift > 2 && length != MAX_SCRIPT + 1 {
                        continue;
                    }
                    let name = format!("{length} bytes of {name}, shifted by {shift}");
                    self.add(name, filled(start.clone(), command, length));
                }
            }
        }
        for length in [131_072, 200_001] {
            self.add(
                format!("{length} bytes"),
                filled(filler.clone(), COMMANDS[5], length),
            );
        }
        let shortest = filled(filler.clone(), b"S\x09", MAX_SCRIPT - 1);
        self.add("letter at the last byte", shortest.clone().raw(b"S"));
        self.add("unknown letter at the last byte", shortest.raw(b"x"));
        let whole = filled(filler, b"S\x09", MAX_SCRIPT - 2);
        self.add("last command whole", whole.clone().raw(b"S\x09"));
        self.add("last command whole, more behind", whole.raw(b"S\x09S\x00"));
    }

    fn for_group(&mut self, clock: u8, marks: u8) {
        let group = |sites, partitions| Script::new(sites, partitions, clock, marks);
        let two = group(2, 1).session(0).session(1);
        let name = |what: &str| format!("{what}, {}{}", char::from(clock), char::from(marks));

        self.add(name("values"), values(two.clone()));
        self.add(name("full tables"), full_tables(two.clone()));
        self.add(name("full table, tidied"), tidied_table(two.clone()));
        self.add(name("full outbox"), full_outbox(group(3, 1).session(0)));
        self.add(name("sessions"), sessions(group(4, 2)));
        self.add(name("order of refusals"), order_of_refusals(group(2, 2)));
        self.add(name("readings"), readings(two.clone()));
        self.add(name("equal stamps"), equal_stamps(two.clone()));
        self.add(name("views"), views(group(2, 2)));
        self.add(name("last times"), last_times(two));
        self.add(name("a cause held back"), cause_held_back(group(3, 1)));
        self.add(name("sites in a circle"), circle(group(4, 1)));
    }

    /// The examples, each with every clock rule and kind of mark.
    fn example_groups(&mut self) {
        for example in examples::all().unwrap_or_default() {
            for clock in CLOCKS {
                for marks in MARKS {
                    let mut script = example.script.clone();
                    script[3..5].copy_from_slice(&[clock, marks]);
                    let name = format!("{} {clock} {marks}", example.name);
                    self.add(name, Script::default().raw(&script));
                }
            }
        }
    }
}

fn filled(script: Script, command: &[u8], length: usize) -> Script {
    let missing = length.saturating_sub(script.len());
    let filling: Vec<u8> = command.iter().copied().cycle().take(missing).collect();
    script.raw(&filling)
}

/// Tells the servers of partition 0 at sites 0 and 1 one reading.
fn tell_both(script: Script, reading: u64) -> Script {
    script.tell(0, 0, reading).tell(1, 0, reading)
}

/// Everything that waits goes over, and each site takes it as stable.
fn settle(script: Script) -> Script {
    let heartbeats = script.heartbeat(0, 0).heartbeat(1, 0);
    let delivered = heartbeats.repeat(18, |script| script.deliver(0, 1, 0).deliver(1, 0, 0));
    [0, 1].into_iter().fold(delivered, |script, site| {
        script.report(site, 0).stabilise(site, 0)
    })
}

fn values(mut script: Script) -> Script {
    const AMOUNTS: [u32; 11] = [
        0,
        1,
        2,
        255,
        9_999,
        10_000,
        10_001,
        65_535,
        65_536,
        u32::MAX - 1,
        u32::MAX,
    ];
    let mut reading = 0;
    for kind in [0, 1, 2, 3, 4, 5, 128, 255] {
        for amount in AMOUNTS {
            reading += 1;
            script = script
                .tell(0, 0, reading)
                .put(0, u16::from(kind), (kind, amount))
                .get(0, u16::from(kind))
                .deliver(0, 1, 0);
        }
    }
    settle(tell_both(script, reading + 1))
        .get(1, 0)
        .get(1, 1)
        .get(1, 2)
        .get(1, 3)
        .get(1, 4)
}

/// Fills a table by puts, and another by deliveries, each up to its capacity and past it.
fn full_tables(mut script: Script) -> Script {
    for reading in 1..=34 {
        script = tell_both(script, reading)
            .put(0, 7, (1, reading as u32))
            .deliver(0, 1, 0);
    }
    let own = script.put(1, 7, PRICE).heartbeat(1, 0).deliver(1, 0, 0);
    let other = own.tell(0, 0, 50).heartbeat(0, 0).deliver(0, 1, 0);
    settle(tell_both(other, 60))
        .get(0, 7)
        .get(1, 7)
        .put(0, 7, PRICE)
}

/// A full table refuses an update but not a heartbeat, and takes the update once it is tidied.
fn tidied_table(mut script: Script) -> Script {
    for reading in 1..=16 {
        script = tell_both(script, reading)
            .put(0, 7, PRICE)
            .put(1, 8, PRICE)
            .deliver(0, 1, 0)
            .deliver(1, 0, 0);
    }
    let waiting = tell_both(script, 20).tidy(0, 0).put(0, 7, PRICE);
    let settled = settle(tell_both(waiting, 30)).tidy(0, 0).tell(0, 0, 31);
    let refused = settled.put(0, 7, PRICE).heartbeat(0, 0).deliver(0, 1, 0);
    let taken = refused.deliver(0, 1, 0).tidy(1, 0).deliver(0, 1, 0);
    settle(tell_both(taken.deliver(0, 1, 0), 40))
        .tidy(1, 0)
        .tidy(1, 0)
        .get(0, 7)
        .get(1, 7)
        .get(1, 8)
}

/// One site takes everything, the other nothing: 16 entries are the most.
fn full_outbox(mut script: Script) -> Script {
    for reading in 1..=18 {
        script = script
            .tell(0, 0, reading)
            .put(0, 1, PRICE)
            .deliver(0, 1, 0)
            .tell(0, 0, reading)
            .heartbeat(0, 0);
    }
    script
        .deliver(0, 1, 0)
        .deliver(0, 2, 0)
        .tell(0, 0, 30)
        .heartbeat(0, 0)
        .put(0, 1, PRICE)
        .repeat(18, |script| script.deliver(0, 2, 0).deliver(0, 1, 0))
        .put(0, 1, PRICE)
}

fn sessions(script: Script) -> Script {
    let opened = (0..9).fold(script.session(4), |script, number| {
        script.session(number % 4)
    });
    let refused = opened.session(4).session(255).tell(3, 1, 9);
    (0..9).fold(refused, |script, session| {
        script
            .put(session, 3, PRICE)
            .get(session, 3)
            .view(session, 1, 3, 2)
    })
}

/// Calls for which several refusals hold at once.
fn order_of_refusals(script: Script) -> Script {
    let sessions = script.put(0, 1, UNLAWFUL).session(0).session(1);
    let unlawful = sessions.put(2, 1, UNLAWFUL).put(0, 0, UNLAWFUL);
    let told = unlawful
        .tell(2, 0, 1 << 47)
        .tell(0, 2, 1 << 47)
        .tell(0, 0, 1 << 47)
        .tell(0, 0, 5)
        .tell(0, 0, (1 << 48) - 1)
        .tell(0, 0, 4)
        .tell(0, 0, 5);
    let full_outbox = (6..=22).fold(told, |script, reading| {
        script.tell(0, 0, reading).put(0, 0, PRICE)
    });
    let both = full_outbox
        .put(0, 0, UNLAWFUL)
        .put(0, 0, PRICE)
        .heartbeat(0, 0)
        .heartbeat(0, 2)
        .heartbeat(2, 0);
    let other_full = (1..=16).fold(both, |script, reading| {
        script.tell(1, 0, reading).put(1, 0, PRICE).deliver(1, 0, 0)
    });
    let table_and_outbox = other_full
        .put(0, 0, PRICE)
        .put(0, 0, UNLAWFUL)
        .put(2, 0, PRICE);
    let deliveries = table_and_outbox
        .deliver(0, 0, 0)
        .deliver(0, 2, 0)
        .deliver(2, 0, 0)
        .deliver(0, 1, 2)
        .deliver(1, 0, 0)
        .deliver(1, 0, 1)
        .repeat(17, |script| script.deliver(0, 1, 0))
        .tell(0, 0, 40)
        .heartbeat(0, 0)
        .put(0, 0, PRICE)
        .deliver(0, 1, 0)
        .deliver(0, 1, 0);
    deliveries
        .view(0, 2, 1, 1)
        .view(9, 2, 1, 1)
        .view(9, 1, 1, 1)
        .report(2, 0)
        .report(0, 2)
        .stabilise(2, 0)
        .stabilise(0, 2)
        .tidy(2, 0)
        .tidy(0, 2)
        .lead(2, 0)
        .lead(0, 2)
        .get(9, 0)
        .repeat(7, |script| script.session(1))
        .session(2)
        .session(1)
}

/// Equal readings, readings behind, the highest one and those past it; leads of both signs.
fn readings(script: Script) -> Script {
    script
        .tell(0, 0, 0)
        .heartbeat(0, 0)
        .put(0, 1, PRICE)
        .tell(0, 0, 100)
        .lead(0, 0)
        .put(0, 1, PRICE)
        .put(0, 1, PRICE)
        .heartbeat(0, 0)
        .tell(0, 0, 100)
        .heartbeat(0, 0)
        .tell(0, 0, 99)
        .tell(0, 0, 101)
        .put(0, 1, PRICE)
        .lead(0, 0)
        .tell(1, 0, 50)
        .repeat(8, |script| script.deliver(0, 1, 0))
        .report(1, 0)
        .stabilise(1, 0)
        .get(1, 1)
        .put(1, 1, PRICE)
        .lead(1, 0)
        .tell(1, 0, 51)
        .lead(1, 0)
        .tell(0, 0, LAST_READING)
        .lead(0, 0)
        .tell(0, 0, LAST_READING + 1)
        .tell(0, 0, (1 << 48) - 1)
        .tell(0, 0, LAST_READING)
        .heartbeat(0, 0)
        .heartbeat(0, 0)
        .lead(0, 0)
        .lead(1, 0)
}

/// Two sites put one key at equal stamps; the higher source is the later at both.
fn equal_stamps(script: Script) -> Script {
    let puts = tell_both(script, 100)
        .put(1, 5, (2, 1100))
        .put(0, 5, (2, 1200));
    let early = puts.get(0, 5).get(1, 5).deliver(0, 1, 0).deliver(1, 0, 0);
    settle(tell_both(early, 101))
        .get(0, 5)
        .get(1, 5)
        .tidy(0, 0)
        .tidy(1, 0)
        .view(0, 0, 5, 5)
        .view(1, 0, 5, 6)
}

fn views(script: Script) -> Script {
    let empty = script
        .view(0, 0, 2, 3)
        .session(0)
        .session(1)
        .view(0, 0, 2, 3);
    let puts = empty
        .tell(0, 0, 100)
        .put(0, 2, (3, 1))
        .tell(0, 1, 101)
        .put(0, 3, (2, 1200))
        .tell(0, 0, 102)
        .put(0, 4, (0, 0))
        .view(0, 0, 2, 3)
        .view(0, 1, 3, 4);
    let crossed = puts.repeat(3, |script| script.deliver(0, 1, 0).deliver(0, 1, 1));
    let servers = [(0, 0), (0, 1), (1, 0), (1, 1)];
    let beaten = servers
        .into_iter()
        .fold(crossed, |script, (site, partition)| {
            script
                .tell(site, partition, 200)
                .heartbeat(site, partition)
                .deliver(site, 1 - site, partition)
        });
    let reported = servers
        .into_iter()
        .fold(beaten, |script, (site, partition)| {
            script.report(site, partition)
        });
    reported
        .view(1, 0, 2, 3)
        .stabilise(1, 0)
        .view(1, 1, 3, 2)
        .view(1, 0, 3, 2)
        .view(1, 1, 4, 9)
        .view(1, 2, 3, 2)
        .view(2, 0, 3, 2)
        .view(2, 2, 3, 2)
        .stabilise(0, 1)
        .view(0, 1, 2, 3)
        .tidy(0, 0)
        .tidy(1, 1)
        .get(1, 4)
}

/// The highest times: stamps of the last reading, and what depends on them.
fn last_times(script: Script) -> Script {
    let told = script
        .tell(0, 0, LAST_READING - 1)
        .heartbeat(0, 0)
        .put(0, 1, PRICE)
        .tell(0, 0, LAST_READING)
        .heartbeat(0, 0)
        .put(0, 1, (1, u32::MAX))
        .put(0, 2, (1, u32::MAX))
        .repeat(3, |script| script.heartbeat(0, 0).deliver(0, 1, 0));
    settle(told)
        .view(0, 0, 1, 2)
        .get(1, 1)
        .put(1, 1, PRICE)
        .lead(1, 0)
        .tell(1, 0, LAST_READING)
        .put(1, 1, PRICE)
        .lead(1, 0)
        .repeat(20, |script| script.deliver(0, 1, 0).deliver(1, 0, 0))
        .get(0, 1)
        .get(1, 1)
        .view(1, 0, 1, 2)
}

/// Versions reach a site before what their writers were shown, and what those who were shown them have put.
fn cause_held_back(script: Script) -> Script {
    let opened = script.session(0).session(1).session(2).session(0);
    let cause = opened
        .tell(2, 0, 100)
        .put(2, 1, (3, 1))
        .deliver(2, 0, 0)
        .tell(1, 0, 110)
        .heartbeat(1, 0)
        .deliver(1, 0, 0)
        .tell(2, 0, 120)
        .heartbeat(2, 0)
        .deliver(2, 0, 0)
        .tell(0, 0, 130)
        .heartbeat(0, 0)
        .report(0, 0)
        .stabilise(0, 0)
        .get(0, 1);
    let effects = cause
        .tell(0, 0, 200)
        .put(0, 2, PRICE)
        .tell(0, 0, 201)
        .put(0, 3, PRICE)
        .get(3, 3)
        .tell(0, 0, 202)
        .put(3, 4, PRICE);
    let seen = |script: Script| {
        let stable = script.report(1, 0).stabilise(1, 0);
        let gets = (1..=4).fold(stable, |script, key| script.get(1, key));
        gets.view(1, 0, 2, 3).view(1, 0, 1, 4)
    };
    let early = seen(effects.repeat(5, |script| script.deliver(0, 1, 0)));
    let half = seen(early.deliver(2, 1, 0));
    let beaten = half
        .tell(2, 0, 300)
        .heartbeat(2, 0)
        .tell(1, 0, 300)
        .heartbeat(1, 0)
        .repeat(3, |script| script.deliver(2, 1, 0));
    seen(beaten)
}

/// Four sites, each of which depends on what the one before has put.
fn circle(script: Script) -> Script {
    let mut script = (0..4).fold(script, Script::session);
    let mut reading = 0;
    for site in (0..12).map(|turn| turn % 4) {
        reading += 10;
        script = script
            .tell(site, 0, reading)
            .get(site, 7)
            .put(site, 7, (1, u32::from(site)))
            .view(site, 0, 7, 8);
        script = (0..4).fold(script, |script, to| script.deliver(site, to, 0));
        script = (0..4).fold(script, |script, from| {
            let beaten = script.tell(from, 0, reading + 5).heartbeat(from, 0);
            (0..4).fold(beaten, |script, to| script.deliver(from, to, 0))
        });
        script = (0..4).fold(script, |script, site| {
            script.report(site, 0).stabilise(site, 0)
        });
    }
    (0..4).fold(script, |script, site| {
        script.view(site, 0, 7, 8).tidy(site, 0).lead(site, 0)
    })
}
