//! Runs cases on as many workers as there are processors, each with a driver of its own.

use crate::met::Met;
use crate::peers::{Outcome, Peers};
use crate::plan::Plan;
use crate::request::Request;
use crate::rng::Rng;
use crate::Options;
use std::panic::{catch_unwind, AssertUnwindSafe};

/// A case that failed, and what differs.
pub struct Failure {
    pub case: usize,
    pub words: String,
}

/// What the workers found.
#[derive(Default)]
pub struct Found {
    pub ran: usize,
    pub failures: Vec<Failure>,
    pub met: Met,
}

/// Runs the cases.
pub fn run(plan: &Plan, cases: &[usize], options: &Options) -> Found {
    let workers = std::thread::available_parallelism().map_or(1, |count| count.get().min(4));
    let mut found = Found::default();
    std::thread::scope(|scope| {
        let shares: Vec<Vec<usize>> =
            (0..workers).map(|first| cases.iter().copied().skip(first).step_by(workers).collect()).collect();
        let running: Vec<_> =
            shares.into_iter().map(|share| scope.spawn(move || work(plan, &share, options))).collect();
        for worker in running {
            found.add(worker.join().expect("a worker does not panic"));
        }
    });
    found.failures.sort_by_key(|failure| failure.case);
    found
}

impl Found {
    fn add(&mut self, other: Found) {
        self.ran += other.ran;
        self.failures.extend(other.failures);
        self.met.add(&other.met);
    }
}

fn work(plan: &Plan, cases: &[usize], options: &Options) -> Found {
    let mut peers = Peers::new(options);
    let mut failures = Vec::new();
    if let Err(words) = peers.call(&Request::idle()) {
        failures.push(Failure { case: 0, words });
    }
    for &case in cases {
        if let Err(words) = run_case(plan, case, options.seed, &mut peers) {
            failures.push(Failure { case, words });
        }
    }
    Found { ran: cases.len(), failures, met: peers.met }
}

/// Runs one case; a panic in the second program counts as a difference.
fn run_case(plan: &Plan, case: usize, seed: u64, peers: &mut Peers) -> Outcome {
    let (family, index) = plan.find(case);
    let mut rng = Rng::of_case(seed, case);
    peers.begin(case, family.by_chance);
    catch_unwind(AssertUnwindSafe(|| (family.run)(&mut rng, index, peers)))
        .unwrap_or_else(|_| Err("the case panicked".to_string()))
}
