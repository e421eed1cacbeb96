//! States: sound ones close to the rules' edges, and images with damage.

use crate::fields::{get, put, Fields, CANDIDATES, ECHOES, HEARD, IMAGE_LEN, RESERVED};
use crate::packing::{kind_of, INIT, NONE, PROPOSE, ROSTER, TURN, VALUE};
use crate::random::Random;

/// How many numbers a pool has: enough for lists of 65 beside full candidates.
const POOL: u32 = 150;

/// Numbers that states and trays are made of, rising. Some pools are at the ends
/// of the range, and some differ in one byte only, so that a wrong byte order or
/// a cut number shows.
pub fn pool(random: &mut Random) -> Vec<u32> {
    match random.below(4) {
        0 => (1..=POOL).collect(),
        1 => (0..POOL).map(|i| u32::MAX - POOL + 1 + i).collect(),
        2 => {
            (1..=POOL)
                .map(|i| i << 24 | i >> 4 | 1)
                .collect::<Sorted>()
                .0
        }
        _ => {
            (0..POOL)
                .map(|_| random.number().max(1))
                .collect::<Sorted>()
                .0
        }
    }
}

/// Different numbers, rising.
pub struct Sorted(pub Vec<u32>);

impl FromIterator<u32> for Sorted {
    fn from_iter<I: IntoIterator<Item = u32>>(numbers: I) -> Sorted {
        let mut numbers: Vec<u32> = numbers.into_iter().collect();
        numbers.sort_unstable();
        numbers.dedup();
        Sorted(numbers)
    }
}

/// A sound state whose numbers are from the pool.
pub fn sound(random: &mut Random, pool: &[u32]) -> Fields {
    let round = some_round(random);
    let number = random.pick(pool);
    let bit = random.bit();
    let heard = heard(random, pool, number);
    let candidates = candidates(random, pool, round);
    let king = some_king(random, pool, number, &heard, &candidates);
    let first_rounds = first_rounds(random, &heard, number, round);
    let size = random.pick(&[0, 1, 3, 10, 63, 64]);
    let decision = if random.percent(8) {
        random.bit()
    } else {
        NONE
    };
    Fields {
        number,
        round,
        bit,
        said: match decision {
            NONE => said(random, round, bit),
            _ => NONE,
        },
        strong: random.bit(),
        king,
        decision,
        heard,
        candidates,
        echoes: if round == 1 {
            Vec::new()
        } else {
            random.some(pool, size)
        },
        first_rounds,
    }
}

fn some_round(random: &mut Random) -> u32 {
    match random.below(20) {
        0 | 1 => 1,
        2 | 3 => 2,
        4 | 5 => random.within(3, 8) as u32,
        6 | 7 => random.within(190, 194) as u32,
        8 if random.percent(60) => 195,
        _ => random.within(3, 194) as u32,
    }
}

/// What an undecided one may have said.
fn said(random: &mut Random, round: u32, bit: u8) -> u8 {
    match kind_of(round) {
        INIT | ROSTER => NONE,
        VALUE => bit,
        _ => random.below(3) as u8,
    }
}

/// Heard has the own number, and often as many as fit.
fn heard(random: &mut Random, pool: &[u32], number: u32) -> Vec<u32> {
    let size = match random.below(20) {
        0..=8 => random.within(1, 6),
        9..=13 => random.within(7, 20),
        14..=16 => random.within(21, 62),
        _ => random.within(63, 64),
    };
    let others: Vec<u32> = pool.iter().copied().filter(|&n| n != number).collect();
    let mut heard = random.some(&others, size - 1);
    let place = heard.partition_point(|&n| n < number);
    heard.insert(place, number);
    heard
}

/// 0 for the own number, for others any round that a tray can have, whatever the state's:
/// often the first one, one before the state's, or the last.
fn first_rounds(random: &mut Random, heard: &[u32], number: u32, round: u32) -> Vec<u8> {
    let before = (round as usize - 1).max(1);
    let mut first = |&other: &u32| match random.below(6) {
        _ if other == number => 0,
        0 | 1 => 1,
        2 | 3 => random.within(1, before) as u8,
        4 => 194,
        _ => random.within(1, 194) as u8,
    };
    heard.iter().map(&mut first).collect()
}

/// Candidates come often in a number near the next phase's, where the decision
/// falls, or near 64, where a tray is refused.
fn candidates(random: &mut Random, pool: &[u32], round: u32) -> Vec<u32> {
    if round <= 2 {
        return Vec::new();
    }
    let next_phase = (round as usize - 2) / 3;
    let size = match random.below(10) {
        0..=4 => (next_phase + random.below(3)).saturating_sub(1),
        5 => 0,
        6 | 7 => random.within(58, 64),
        _ => random.below(65),
    };
    random.some(pool, size.min(64))
}

/// Oneself, one heard, one listed, one from anywhere, or none.
fn some_king(r: &mut Random, pool: &[u32], own: u32, heard: &[u32], candidates: &[u32]) -> u32 {
    match r.below(10) {
        0..=2 => own,
        3..=6 => r.pick(heard),
        7 if !candidates.is_empty() => r.pick(candidates),
        8 => r.pick(pool),
        _ => 0,
    }
}

/// Damages an image: mostly by one field or byte.
pub fn damage(random: &mut Random, image: &mut Vec<u8>) {
    match random.below(12) {
        0 => {
            let at = random.below(IMAGE_LEN);
            image[at] ^= 1 << random.below(8);
        }
        1 => image[random.pick(&[8, 9, 10, 15])] = random.pick(&[0, 1, 2, 3, 255]),
        2 => put(image, 4, random.pick(&[0, 1, 2, 3, 195, 196, 197, 1 << 24])),
        3 => damage_count(random, image),
        4 => damage_unused(random, image),
        5 => damage_order(random, image),
        6 => image[random.within(RESERVED, IMAGE_LEN - 1)] = random.byte().max(1),
        7 => put(image, 0, random.pick(&[0, 1, u32::MAX])),
        8 => move_round(random, image),
        9 => *image = random.bytes(IMAGE_LEN),
        10 => {
            let length = random.pick(&[0, 1, 4, 796, 860, 1023, 1025, 1028, 2048]);
            image.resize(length, 0);
        }
        _ => image.fill(random.pick(&[0, 255])),
    }
}

fn some_list(random: &mut Random) -> usize {
    random.pick(&[HEARD, CANDIDATES, ECHOES])
}

fn damage_count(random: &mut Random, image: &mut [u8]) {
    let at = some_list(random);
    let count = get(image, at);
    let other = [count + 1, count.wrapping_sub(1), 0, 64, 65, 256, 1 << 24];
    put(image, at, random.pick(&other));
}

fn damage_unused(random: &mut Random, image: &mut [u8]) {
    let at = some_list(random);
    let count = get(image, at) as usize;
    if count < 64 {
        let place = random.pick(&[count, 63, (count + 63) / 2]);
        put(image, at + 4 + 4 * place, random.pick(&[1, u32::MAX]));
    }
}

/// Makes two neighbours equal, or the other way round, or one of them 0.
fn damage_order(random: &mut Random, image: &mut [u8]) {
    let at = some_list(random);
    let count = get(image, at) as usize;
    if count >= 2 {
        let place = at + 4 + 4 * random.below(count - 1);
        let (first, second) = (get(image, place), get(image, place + 4));
        let (first, second) =
            random.pick(&[(second, first), (first, first), (0, second), (first, 0)]);
        put(image, place, first);
        put(image, place + 4, second);
    }
}

/// Leaves all fields and moves the round, so that said or a list is not allowed.
fn move_round(random: &mut Random, image: &mut [u8]) {
    let round = random.pick(&[1, 2, 3, 4, 5]);
    put(image, 4, round);
    if kind_of(round) == PROPOSE || kind_of(round) == TURN {
        image[9] = 3;
    }
}
