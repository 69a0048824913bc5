//! Times: the least of many rounds, in which the programs take turns.

use std::hint::black_box;
use std::time::{Duration, Instant};

use crate::programs::Program;

const LEAST_ROUNDS: usize = 20;
const BATCH_NANOSECONDS: f64 = 40_000.0;

/// For each program the least time of each script in nanoseconds. The rounds go on for about as long as allowed.
///
/// In each round every program lists every script once, or so many times that reading the clock does not count.
pub fn least_times<const N: usize>(
    scripts: [&[u8]; N],
    buffer: &mut [u8],
    allowed: Duration,
) -> [[f64; N]; 3] {
    let mut jobs =
        Program::ALL.map(|program| scripts.map(|script| Job::new(program, script, buffer)));
    let started = Instant::now();
    let mut rounds = 0;
    while rounds < LEAST_ROUNDS || started.elapsed() < allowed {
        for job in jobs.as_flattened_mut() {
            job.run(buffer);
        }
        rounds += 1;
    }
    jobs.map(|jobs| jobs.map(|job| job.least))
}

/// A program that lists a script again and again.
struct Job<'a> {
    program: Program,
    script: &'a [u8],
    /// How many runs are timed together.
    batch: u32,
    /// The least time of a run so far.
    least: f64,
}

impl<'a> Job<'a> {
    fn new(program: Program, script: &'a [u8], buffer: &mut [u8]) -> Self {
        let mut job = Self {
            program,
            script,
            batch: 1,
            least: f64::INFINITY,
        };
        while job.batch_time(buffer) < BATCH_NANOSECONDS {
            job.batch *= 2;
        }
        job
    }

    fn run(&mut self, buffer: &mut [u8]) {
        let time = self.batch_time(buffer) / f64::from(self.batch);
        self.least = self.least.min(time);
    }

    fn batch_time(&self, buffer: &mut [u8]) -> f64 {
        let started = Instant::now();
        for _ in 0..self.batch {
            black_box(self.program.list(black_box(self.script), buffer));
        }
        started.elapsed().as_nanos() as f64
    }
}
