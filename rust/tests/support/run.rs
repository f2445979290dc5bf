//! Many cases on all cores, the same in each run.
//!
//! `CORKGULLY_SEED` says which cases, a name of the test's own how many, and `CORKGULLY_CASE` has
//! one tried alone.

use super::coverage::{Coverage, Met};
use super::room::tell_of_faults;
use std::env;
use std::thread;

const SEED: u64 = 0x636f_726b_6775_6c6c;

/// What tries a case, with the rooms that it lends from.
pub trait Trial {
    fn new(seed: u64) -> Self;

    /// Tries a case, and notes what came of it. It panics where the library and the model differ.
    fn run(&mut self, case: u64, coverage: &mut Coverage);
}

/// What a run tries, and what it has to meet if it isn't cut short.
pub struct Plan {
    /// The name under which the environment can say another number of cases.
    pub name: &'static str,
    /// Cases 0 up to this one are tried.
    pub cases: u64,
    /// At least so many calls of the library.
    pub calls: u64,
    /// At least so many of them without a refusal.
    pub successes: u64,
    pub wanted: Vec<Met>,
}

impl Plan {
    pub fn run<T: Trial>(&self) {
        let seed = number("CORKGULLY_SEED").unwrap_or(SEED);
        let cases = number(self.name).unwrap_or(self.cases);
        tell_of_faults();
        if let Some(case) = number("CORKGULLY_CASE") {
            return T::new(seed).run(case, &mut Coverage::default());
        }
        let coverage = try_all::<T>(seed, cases);
        println!(
            "seed {:#x}, {} cases: {} calls, {} of them refused",
            seed,
            cases,
            coverage.calls,
            coverage.calls - coverage.successes
        );
        coverage.print();
        if cases >= self.cases {
            assert!(coverage.calls >= self.calls, "too few calls");
            assert!(coverage.successes >= self.successes, "too few successes");
            coverage.assert_complete(&self.wanted);
        }
    }
}

fn try_all<T: Trial>(seed: u64, cases: u64) -> Coverage {
    let workers = thread::available_parallelism().map_or(1, |count| count.get() as u64);
    let started: Vec<_> = (0..workers)
        .map(|worker| {
            thread::spawn(move || {
                let mut trial = T::new(seed);
                let mut coverage = Coverage::default();
                for case in (worker..cases).step_by(workers as usize) {
                    trial.run(case, &mut coverage);
                }
                coverage
            })
        })
        .collect();
    let mut coverage = Coverage::default();
    for worker in started {
        coverage.add(worker.join().expect("a worker ends with its coverage"));
    }
    coverage
}

fn number(name: &str) -> Option<u64> {
    let text = env::var(name).ok()?;
    let read = match text.strip_prefix("0x") {
        Some(digits) => u64::from_str_radix(digits, 16),
        None => text.parse(),
    };
    Some(read.unwrap_or_else(|_| panic!("{} is no number: {}", name, text)))
}
