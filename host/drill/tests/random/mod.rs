//! Random scenarios for the tests.

use checks::random::Random;
use drill::liar::plan;
use drill::scenario::{Deed, Order, Saying, Scenario, Whom};

/// A line of so many, so many of them faulty, with liars that a seed picks.
pub fn random_scenario(seed: u64, size: usize, faulty: usize) -> Scenario {
    let mut random = Random::new(seed);
    let pool: Vec<u32> = match random.percent(50) {
        true => (1..=100).collect(),
        false => (0..100).map(|i| 1 + i * 42_949_672).collect(),
    };
    let mut numbers = random.some(&pool, size);
    if random.percent(70) {
        random.shuffle(&mut numbers);
    }
    let correct = numbers.split_off(faulty);
    let mut line = Scenario {
        faulty: numbers.into_iter().collect(),
        correct: correct
            .into_iter()
            .map(|number| (number, random.bit()))
            .collect(),
        ..Scenario::default()
    };
    line.orders = match random.percent(60) {
        true => plan(seed, &line),
        false => vec![anything(seed)],
    };
    line
}

/// Every faulty one tells each something of its own in every round.
fn anything(seed: u64) -> Order {
    Order {
        line: 1,
        rounds: 1..=194,
        seed,
        deed: Deed::Tells {
            who: None,
            whom: Whom::Each,
            what: vec![Saying::Anything],
        },
    }
}
