//! The scripts that are measured.

use scripts::{LAST_READING, Script, Value};

use crate::walk::walk;

/// The time at which scripts start, in milliseconds: stamps are as long as real ones.
pub const NOW: u64 = 1_767_225_600_000;

/// The name of the script without commands.
pub const EMPTY: &str = "empty";

/// About how many commands the script of a letter has.
const COMMANDS: usize = 4000;

const PRICE: Value = (1, 1999);

/// A script and what it is about.
pub struct Case {
    /// Its name, which can be the name of a file.
    pub name: String,
    /// The letter that it is about, unless it is about all.
    pub letter: Option<u8>,
    /// The script.
    pub script: Vec<u8>,
}

impl Case {
    fn new(name: impl Into<String>, script: Script) -> Self {
        Self {
            name: name.into(),
            letter: None,
            script: script.into_bytes(),
        }
    }

    fn of_letter(letter: u8, script: Script) -> Self {
        Self {
            letter: Some(letter),
            ..Self::new(char::from(letter), script)
        }
    }

    /// How many commands the script has.
    pub fn commands(&self) -> usize {
        let listing = second::listing(&self.script);
        listing.iter().filter(|&&byte| byte == b'\n').count()
    }
}

/// Short scripts: what a call costs, and what it costs to make a group.
pub fn short() -> Vec<Case> {
    vec![
        Case::new(EMPTY, Script::default()),
        Case::new("group", Script::new(2, 2, b'H', b'E')),
        Case::new("worked", worked()),
    ]
}

/// A script for each letter, mostly of that letter, and one of refused calls.
pub fn letters() -> Vec<Case> {
    let letters: [(u8, Script); 11] = [
        (b'S', sessions()),
        (b'T', tells()),
        (b'P', puts()),
        (b'G', gets()),
        (b'H', heartbeats()),
        (b'D', deliveries()),
        (b'R', at_servers(Script::report)),
        (b'U', at_servers(Script::stabilise)),
        (b'C', at_servers(Script::tidy)),
        (b'Q', at_servers(Script::lead)),
        (b'V', views()),
    ];
    let refused = Case::new("refused", refused());
    letters
        .into_iter()
        .map(|(letter, script)| Case::of_letter(letter, script))
        .chain([refused])
        .collect()
}

/// Walks of full length at each pair of clock rule and kind of mark.
pub fn full_length() -> Vec<Case> {
    [(b'R', b'O'), (b'R', b'E'), (b'H', b'O'), (b'H', b'E')]
        .into_iter()
        .map(|(clock, marks)| Case {
            name: format!("walk-{}{}", char::from(clock), char::from(marks)),
            letter: None,
            script: walk(clock, marks),
        })
        .collect()
}

/// All of them.
pub fn all() -> Vec<Case> {
    [short(), letters(), full_length()]
        .into_iter()
        .flatten()
        .collect()
}

/// A group with a session at each site, number for number, and clocks at the present time.
pub fn start(sites: u8, partitions: u8) -> Script {
    let script = Script::new(sites, partitions, b'H', b'E');
    let script = (0..sites).fold(script, Script::session);
    servers(sites, partitions).fold(script, |script, (site, partition)| {
        script.tell(site, partition, NOW)
    })
}

/// The same where each server holds so many versions, of different keys, and takes all of them as stable.
pub fn holding(sites: u8, partitions: u8, versions: u16) -> Script {
    let keys = 0..versions * u16::from(partitions);
    let script = keys.fold(start(sites, partitions), |script, key| {
        let partition = (key % u16::from(partitions)) as u8;
        deliver_to_all(script.put(0, key, PRICE), sites, partition)
    });
    let script = (0..partitions).fold(script, |script, partition| {
        let script = script.tell(0, partition, NOW + 1).heartbeat(0, partition);
        deliver_to_all(script, sites, partition)
    });
    settle(script, sites, partitions)
}

fn servers(sites: u8, partitions: u8) -> impl Iterator<Item = (u8, u8)> {
    (0..sites).flat_map(move |site| (0..partitions).map(move |partition| (site, partition)))
}

/// Delivers one entry of site 0 to each other site.
fn deliver_to_all(script: Script, sites: u8, partition: u8) -> Script {
    (1..sites).fold(script, |script, to| script.deliver(0, to, partition))
}

/// Every server reports, takes what its site has reported as stable and drops old versions.
fn settle(script: Script, sites: u8, partitions: u8) -> Script {
    [Script::report, Script::stabilise, Script::tidy]
        .into_iter()
        .fold(script, |script, command| {
            servers(sites, partitions).fold(script, |script, (site, partition)| {
                command(script, site, partition)
            })
        })
}

/// Only the first 8 are done: more sessions than that are refused.
fn sessions() -> Script {
    let script = Script::new(2, 1, b'H', b'E');
    script.repeat(COMMANDS, |script| script.session(1))
}

fn tells() -> Script {
    (0..COMMANDS as u64).fold(start(3, 2), |script, number| {
        script.tell((number % 3) as u8, (number % 2) as u8, NOW + number)
    })
}

/// Bursts of puts, after which the other site takes all of them and both drop the old ones.
fn puts() -> Script {
    const BURST: u16 = 16;
    start(2, 1).repeat(COMMANDS / 38, |script| {
        let script = (0..BURST).fold(script, |script, number| {
            script.put(0, number % 8, (1, number.into()))
        });
        let script = script.repeat(BURST.into(), |script| script.deliver(0, 1, 0));
        settle(script, 2, 1)
    })
}

fn gets() -> Script {
    (0..COMMANDS).fold(holding(3, 2, 8), |script, number| {
        script.get((number % 3) as u8, (number % 16) as u16)
    })
}

fn heartbeats() -> Script {
    start(2, 1).repeat(COMMANDS / 2, |script| {
        script.heartbeat(0, 0).deliver(0, 1, 0)
    })
}

/// Bursts of puts that all three other sites take, after which all four drop the old ones.
fn deliveries() -> Script {
    const BURST: usize = 16;
    start(4, 1).repeat(COMMANDS / 76, |script| {
        let script = (0..BURST as u16).fold(script, |script, key| script.put(0, key % 8, PRICE));
        let script = script.repeat(BURST, |script| deliver_to_all(script, 4, 0));
        settle(script, 4, 1)
    })
}

/// A command at every server, over and over, where each holds 8 versions.
fn at_servers(command: fn(Script, u8, u8) -> Script) -> Script {
    holding(3, 2, 8).repeat(COMMANDS / 6, |script| {
        servers(3, 2).fold(script, |script, (site, partition)| {
            command(script, site, partition)
        })
    })
}

fn views() -> Script {
    (0..COMMANDS).fold(holding(3, 2, 8), |script, number| {
        let (first, second) = ((number % 16) as u16, (number % 15) as u16);
        script.view((number % 3) as u8, (number % 2) as u8, first, second)
    })
}

/// Each of these calls is refused, and what it is refused for differs.
fn refused() -> Script {
    holding(2, 2, 8).repeat(COMMANDS / 16, |script| {
        script
            .session(2)
            .tell(0, 2, NOW)
            .tell(0, 0, LAST_READING + 1)
            .tell(0, 0, NOW - 1)
            .put(9, 1, PRICE)
            .put(0, 1, (2, 10_001))
            .get(9, 1)
            .heartbeat(2, 0)
            .deliver(0, 0, 1)
            .deliver(0, 1, 1)
            .report(0, 2)
            .stabilise(2, 0)
            .tidy(0, 2)
            .lead(2, 0)
            .view(0, 2, 1, 2)
            .view(9, 0, 1, 2)
    })
}

/// The worked case of docs/RULES.md, section 11.6.
fn worked() -> Script {
    Script::new(2, 2, b'H', b'E')
        .session(0)
        .session(1)
        .tell(0, 0, 100)
        .put(0, 2, (3, 1))
        .put(0, 3, (2, 1200))
        .deliver(0, 1, 1)
        .get(1, 3)
        .deliver(0, 1, 0)
        .report(1, 0)
        .report(1, 1)
        .stabilise(1, 1)
        .get(1, 3)
        .heartbeat(0, 0)
        .deliver(0, 1, 0)
        .report(1, 0)
        .stabilise(1, 1)
        .get(1, 3)
        .get(1, 2)
        .deliver(0, 1, 0)
}

#[cfg(test)]
mod tests {
    use super::*;

    fn lines(case: &Case) -> Vec<String> {
        let listing = String::from_utf8(second::listing(&case.script)).unwrap();
        listing.lines().map(str::to_owned).collect()
    }

    fn refused_lines(lines: &[String]) -> usize {
        lines.iter().filter(|line| line.contains(" no ")).count()
    }

    #[test]
    fn the_script_of_a_letter_is_mostly_of_that_letter_and_done() {
        for case in letters() {
            let lines = lines(&case);
            let Some(letter) = case.letter else {
                assert!(refused_lines(&lines) * 10 > lines.len() * 9);
                continue;
            };
            let sign = format!(" {} ", char::from(letter));
            let own = lines.iter().filter(|line| line.contains(&sign)).count();
            assert!(own * 5 > lines.len() * 2, "{}", case.name);
            let refused = if letter == b'S' { COMMANDS - 8 } else { 0 };
            assert_eq!(refused_lines(&lines), refused, "{}", case.name);
        }
    }

    #[test]
    fn walks_have_the_full_length_and_few_refusals() {
        for case in full_length() {
            assert_eq!(case.script.len(), price_store::MAX_SCRIPT);
            let lines = lines(&case);
            assert!(refused_lines(&lines) * 50 < lines.len(), "{}", case.name);
        }
    }

    #[test]
    fn the_worked_case_ends_as_in_the_rules() {
        let listing = second::listing(&worked().into_bytes());
        assert!(listing.ends_with(b"19 G basis sheet 100.0 0\n20 D no 9\n"));
    }
}
