//! Random liars: what one tells if anything will do, and whole plans of lying.

use checks::packing::{kind_of, INIT, NONE, PROPOSE, TURN, VALUE};
use checks::random::Random;

use crate::scenario::{Deed, Order, Saying, Scenario, Whom, LAST_SENT, MOST_LISTED};

/// Numbers that are mostly nobody's.
const MADE_UP: [u32; 4] = [1, 1000, 2000, u32::MAX];

/// Something to tell in a round: mostly a frame that reads.
pub fn anything(random: &mut Random, scenario: &Scenario, round: u32) -> Saying {
    match random.below(20) {
        0 => Saying::Silent,
        1 => Saying::Empty,
        2 => Saying::Garbled,
        3 => Saying::Stale,
        4 => Saying::Cut,
        5 => Saying::Twice,
        6 => {
            let length = random.below(20) + 1;
            Saying::Bytes(random.bytes(length))
        }
        7 => {
            let correct: Vec<u32> = scenario.correct.keys().copied().collect();
            Saying::Repeats(random.pick(&correct))
        }
        8..11 => Saying::Honest,
        _ => {
            let bit = random.below(3) as u8;
            good(random, scenario, round, bit)
        }
    }
}

/// A frame that reads, with this bit where the kind allows it.
fn good(random: &mut Random, scenario: &Scenario, round: u32, bit: u8) -> Saying {
    match kind_of(round) {
        INIT => Saying::Init,
        VALUE if bit == NONE => Saying::Value(random.bit()),
        VALUE => Saying::Value(bit),
        PROPOSE => Saying::Propose(bit),
        TURN if bit != NONE => Saying::Opinion(bit, some_numbers(random, scenario)),
        _ => Saying::Lists(some_numbers(random, scenario)),
    }
}

/// Some of the line's numbers, faulty ones above all, and some that are made up.
fn some_numbers(random: &mut Random, scenario: &Scenario) -> Vec<u32> {
    let (faulty, correct) = (&scenario.faulty, scenario.correct.keys());
    let mut list: Vec<u32> = faulty
        .iter()
        .copied()
        .filter(|_| random.percent(60))
        .collect();
    list.extend(correct.filter(|_| random.percent(20)));
    list.extend(MADE_UP.iter().filter(|_| random.percent(10)));
    list.sort_unstable();
    list.dedup();
    list.truncate(MOST_LISTED);
    list
}

/// A whole plan of lying for a line: what each faulty one tells whom in each round in which a
/// tray may be worked.
///
/// A plan has a manner: the receivers are divided into two sides, and mostly one is told
/// one bit and the other the other one. So a plan lies to a purpose, which anything in each round
/// would not.
pub fn plan(seed: u64, scenario: &Scenario) -> Vec<Order> {
    let mut random = Random::new(seed);
    let manner = Manner::of(&mut random, scenario);
    let mut orders = Vec::new();
    let last = match scenario.is_promised() {
        true => scenario.limit() - 1,
        false => LAST_SENT,
    };
    for round in 1..=last {
        for &faulty in &scenario.faulty {
            let deeds = manner.deeds(&mut random, scenario, round, faulty);
            orders.extend(deeds.into_iter().map(|deed| Order {
                line: 0,
                rounds: round..=round,
                seed: Order::SEED,
                deed,
            }));
        }
    }
    orders
}

struct Manner {
    /// One side of the receivers; the others are the other side.
    side: Vec<u32>,
    /// How often the sides are drawn anew in a round, in percent.
    restless: usize,
    /// How often it does something odd, in percent.
    odd: usize,
    /// How often it says none where it could say a bit, in percent.
    shy: usize,
}

impl Manner {
    fn of(random: &mut Random, scenario: &Scenario) -> Manner {
        let with_one = scenario.correct.iter().filter(|(_, &bit)| bit == 1);
        let side = match random.percent(40) {
            true => with_one.map(|(&number, _)| number).collect(),
            false => some_side(random, scenario),
        };
        Manner {
            side,
            restless: random.pick(&[0, 20, 100]),
            odd: random.pick(&[0, 10, 40]),
            shy: random.pick(&[0, 30]),
        }
    }

    /// What one tells each of the two sides in a round.
    fn deeds(
        &self,
        random: &mut Random,
        scenario: &Scenario,
        round: u32,
        faulty: u32,
    ) -> Vec<Deed> {
        let side = match random.percent(self.restless) {
            true => some_side(random, scenario),
            false => self.side.clone(),
        };
        let (ones, zeros): (Vec<u32>, Vec<u32>) = scenario
            .correct
            .keys()
            .partition(|number| side.contains(number));
        let sides = [(1, ones), (0, zeros)]
            .into_iter()
            .filter(|(_, to)| !to.is_empty());
        let deed = |(bit, to): (u8, Vec<u32>)| Deed::Tells {
            who: Some(faulty),
            whom: Whom::These(to.into_iter().collect()),
            what: vec![self.told(random, scenario, round, bit)],
        };
        sides.map(deed).collect()
    }

    fn told(&self, random: &mut Random, scenario: &Scenario, round: u32, bit: u8) -> Saying {
        if random.percent(self.odd) {
            return anything(random, scenario, round);
        }
        let bit = if random.percent(self.shy) { NONE } else { bit };
        // Who is not told of it names other kings at first.
        match kind_of(round) == INIT && random.percent(30) {
            true => Saying::Silent,
            false => good(random, scenario, round, bit),
        }
    }
}

/// Some of the receivers, or none, or all.
fn some_side(random: &mut Random, scenario: &Scenario) -> Vec<u32> {
    let all: Vec<u32> = scenario.correct.keys().copied().collect();
    let count = random.within(0, all.len());
    random.some(&all, count)
}
