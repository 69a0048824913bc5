//! Compares the two clock rules through the wrapper with those of the second program.

use std::fmt;

use price_store::{Refusal, Stamp};
use random::Random;
use scripts::LAST_READING;

const TOP: u64 = (1 << 63) - 1;

/// Stamps at which something changes.
const STAMPS: [u64; 24] = [
    0,
    1,
    0xFFFE,
    0xFFFF,
    1 << 16,
    (99 << 16) + 20,
    100 << 16,
    (100 << 16) + 3,
    (100 << 16) + 7,
    (100 << 16) + 0xFFFE,
    (100 << 16) + 0xFFFF,
    101 << 16,
    LAST_READING,
    1 << 47,
    ((LAST_READING - 1) << 16) + 0xFFFF,
    LAST_READING << 16,
    (LAST_READING << 16) + 1,
    TOP - 1,
    TOP,
    1 << 63,
    (1 << 63) + 1,
    (1 << 63) + (100 << 16),
    u64::MAX - 1,
    u64::MAX,
];

/// Readings at which something changes.
const READINGS: [u64; 17] = [
    0,
    1,
    90,
    99,
    100,
    101,
    102,
    LAST_READING - 1,
    LAST_READING,
    LAST_READING + 1,
    (1 << 48) - 1,
    1 << 48,
    (1 << 48) + 100,
    TOP,
    1 << 63,
    u64::MAX - 1,
    u64::MAX,
];

type Wrapped = fn(Stamp, u64, Stamp) -> Result<Stamp, Refusal>;
type Second = fn(u64, u64, u64) -> i64;

const RULES: [(&str, Wrapped, Second); 2] = [
    ("raw", price_store::raw, second::raw_stamp),
    ("hybrid", price_store::hybrid, second::hybrid_stamp),
];

/// How often each clock rule gave each kind of answer.
pub struct ClockTally {
    triples: u64,
    answers: [[u64; 4]; RULES.len()],
}

impl fmt::Display for ClockTally {
    fn fmt(&self, f: &mut fmt::Formatter<'_>) -> fmt::Result {
        writeln!(f, "clock rules: {} triples each", self.triples)?;
        for ((name, ..), [stamps, unlawful, early, end]) in RULES.iter().zip(self.answers) {
            writeln!(
                f,
                "  {name:<7} stamp {stamps}  no 3: {unlawful}  no 7: {early}  no 8: {end}"
            )?;
        }
        Ok(())
    }
}

/// Compares both rules on every triple of the edges and on so many random ones.
pub fn compare_clock_rules(seed: u64, random_triples: u64) -> Result<ClockTally, String> {
    let mut tally = ClockTally {
        triples: 0,
        answers: [[0; 4]; RULES.len()],
    };
    for last in STAMPS {
        for reading in READINGS {
            for dependency in STAMPS {
                tally.compare(last, reading, dependency)?;
            }
        }
    }
    let mut random = Random::part(seed, u64::MAX);
    for _ in 0..random_triples {
        let (last, reading, dependency) = random_triple(&mut random);
        tally.compare(last, reading, dependency)?;
    }
    tally.check_all_met()?;
    Ok(tally)
}

impl ClockTally {
    fn compare(&mut self, last: u64, reading: u64, dependency: u64) -> Result<(), String> {
        self.triples += 1;
        for ((name, wrapped, second), answers) in RULES.iter().zip(&mut self.answers) {
            let [last_stamp, dependency_stamp] = [last, dependency].map(Stamp::from_number);
            let proved = number(wrapped(last_stamp, reading, dependency_stamp));
            let expected = second(last, reading, dependency);
            if proved != expected {
                return Err(format!(
                    "{name}({last}, {reading}, {dependency}): proved {proved}, second {expected}"
                ));
            }
            let kind = match expected {
                0.. => 0,
                -3 => 1,
                -7 => 2,
                _ => 3,
            };
            answers[kind] += 1;
        }
        Ok(())
    }

    /// Raw never ends and hybrid is never early; every other answer must have been met.
    fn check_all_met(&self) -> Result<(), String> {
        let [
            [raw @ .., raw_end],
            [hybrid_stamp, hybrid_unlawful, hybrid_early, hybrid_end],
        ] = self.answers;
        let met = [hybrid_stamp, hybrid_unlawful, hybrid_end];
        if raw.into_iter().chain(met).all(|count| count > 0) && raw_end == 0 && hybrid_early == 0 {
            Ok(())
        } else {
            Err(format!(
                "the clock rules did not give every answer:\n{self}"
            ))
        }
    }
}

fn number(answer: Result<Stamp, Refusal>) -> i64 {
    match answer {
        Ok(stamp) => stamp.number() as i64,
        Err(refusal) => -i64::from(refusal.number()),
    }
}

/// A triple whose numbers are near each other as often as not, so that equal times are met.
fn random_triple(random: &mut Random) -> (u64, u64, u64) {
    let time = random.next() >> (17 + random.below(47));
    let last = random_stamp(random, time);
    let dependency = random_stamp(random, time);
    let reading = match random.below(8) {
        0 => random.next(),
        1 => random.pick(&READINGS),
        2 => random.next() >> 17,
        _ => near(random, time),
    };
    (last, reading, dependency)
}

fn random_stamp(random: &mut Random, time: u64) -> u64 {
    match random.below(8) {
        0 => random.next(),
        1 => random.pick(&STAMPS),
        2 => random.next() >> 1,
        _ => (near(random, time) << 16) | random_count(random),
    }
}

fn near(random: &mut Random, time: u64) -> u64 {
    (time + random.below(3)).saturating_sub(1)
}

fn random_count(random: &mut Random) -> u64 {
    match random.below(3) {
        0 => random.below(4),
        1 => 0xFFFF - random.below(3),
        _ => random.below(1 << 16),
    }
}
