//! What a seed fixes: a case of the comparison, or a run of a network.

use std::thread;

use crate::adversary::{Members, Rushing};
use crate::calls::Calls;
use crate::compare::{case, Histogram};
use crate::network::{Network, Seen};
use crate::random::Random;

const THREADS: u64 = 2;
const CASES: u64 = 150_000;

/// 1, or what CHECKS_SEED says.
pub fn first_seed() -> u64 {
    match std::env::var("CHECKS_SEED") {
        Ok(seed) => seed.parse().expect("CHECKS_SEED is a number"),
        Err(_) => 1,
    }
}

/// Cases of seeds from `first` on; stops at the first mismatch.
fn cases(first: u64) -> Result<Histogram, String> {
    let mut counts = Histogram::default();
    for seed in first..first + CASES {
        case(seed, &mut counts).map_err(|difference| format!("seed {seed}: {difference}"))?;
    }
    Ok(counts)
}

/// Both tested ones against the reference, on each thread with seeds of its own.
pub fn compare() -> Result<Histogram, String> {
    let base = first_seed();
    let firsts = (0..THREADS).map(|i| base + i * CASES);
    println!("seeds {base} to {}", base + THREADS * CASES - 1);
    thread::scope(|scope| {
        let runs: Vec<_> = firsts
            .map(|first| scope.spawn(move || cases(first)))
            .collect();
        let mut total = Histogram::default();
        for run in runs {
            total.add(&run.join().expect("no panic in a thread")?);
        }
        Ok(total)
    })
}

/// Who sends for the faulty ones, by a seed.
pub type MakeAdversary = fn(u64, &Members) -> Rushing;

/// One run of a network; the seed fixes who is faulty and all that happens.
pub fn run<C: Calls>(
    size: usize,
    faulty: usize,
    seed: u64,
    make: MakeAdversary,
) -> Result<Seen, String> {
    let mut random = Random::new(seed);
    let members = Members::of(&mut random, size, faulty);
    let mut adversary = make(random.word(), &members);
    let mut network = Network::<C>::start(&members.correct, members.faulty.len(), random.word())?;
    network.run(&mut adversary)?;
    Ok(network.seen)
}

/// The first seed whose run breaks a claim, and how.
pub fn broken<C: Calls>(size: usize, faulty: usize, claim: &str) -> Option<(u64, String)> {
    let runs = (1..5000).map(|seed| (seed, run::<C>(size, faulty, seed, Rushing::new)));
    runs.filter_map(|(seed, end)| Some((seed, end.err()?)))
        .find(|(_, broken)| broken.starts_with(claim))
}
