//! Which random numbers a test draws, and how many cases it runs. Three variables of the
//! environment say so, and they are read here and nowhere else:
//!
//!     RUNS=10 cargo test -p second                    # ten times as many cases
//!     SEED=2 cargo test -p second                     # other cases: those of seed 2
//!     SEED=2 CASE=17 cargo test -p second TEST        # case 17 of a test alone
//!
//! What is not set is 1, and all cases are run. A case draws its random numbers from the seed, the
//! test's name and its own index, from 0, so it can be run again alone; one that fails says how.

use crate::Random;
use std::fmt::Display;
use std::io::Write;
use std::time::{Duration, Instant};

/// What was run of a test.
pub struct Ran {
    test: &'static str,
    seed: u64,
    cases: u64,
    took: Duration,
}

impl Ran {
    /// Says on standard error how many cases there were, and what they met.
    pub fn say(&self, met: impl Display) {
        let (Ran { test, seed, cases, .. }, took) = (self, self.took.as_secs_f64());
        // Past the test harness, which would swallow it.
        let _ =
            writeln!(std::io::stderr(), "{test}: seed {seed}, {cases} cases; {met}; {took:.1} s");
    }
}

/// Runs a test's cases, so many or as the environment says: each is given its index and its random
/// numbers.
pub fn cases(test: &'static str, cases: u64, mut run: impl FnMut(u64, Random)) -> Ran {
    let seed = seed();
    let indices = match from_environment("CASE") {
        Some(only) => only..only + 1,
        None => 0..cases * from_environment("RUNS").unwrap_or(1),
    };
    let began = Instant::now();
    for index in indices.clone() {
        let _running = Running { test, seed, index };
        run(index, random_of(seed, test, index));
    }
    Ran { test, seed, cases: indices.end - indices.start, took: began.elapsed() }
}

/// Random numbers for what has no cases, by its name: those of case 0.
pub fn random(name: &str) -> Random {
    random_of(seed(), name, 0)
}

/// Whether all cases are run, so that what they met can be asked for.
pub fn all_cases() -> bool {
    from_environment("CASE").is_none()
}

fn seed() -> u64 {
    from_environment("SEED").unwrap_or(1)
}

fn from_environment(name: &str) -> Option<u64> {
    let value = std::env::var(name).ok()?;
    Some(value.parse().unwrap_or_else(|_| panic!("{name} is {value}, which is not a number")))
}

fn random_of(seed: u64, name: &str, index: u64) -> Random {
    let mut start = Random::new(seed).u64();
    for byte in name.bytes() {
        start = Random::new(start ^ u64::from(byte)).u64();
    }
    Random::new(Random::new(start ^ index).u64())
}

/// A case that is being run.
struct Running {
    test: &'static str,
    seed: u64,
    index: u64,
}

impl Drop for Running {
    /// Where it failed, says how to run it again.
    fn drop(&mut self) {
        if std::thread::panicking() {
            let Running { test, seed, index } = self;
            eprintln!("{test} failed in case {index} of seed {seed}. To run it again:");
            eprintln!("  SEED={seed} CASE={index} cargo test -p second {test}");
        }
    }
}
