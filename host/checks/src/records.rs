//! The record of first rounds: damage to it, and what worked trays found and did.

use std::collections::BTreeMap;

use crate::calls::{Calls, Reference};
use crate::fields::{Fields, FIRST_ROUNDS};
use crate::packing::unpack;
use crate::random::Random;

pub const FAULTS: [&str; 4] = [
    "the own number's first round is not 0",
    "another's first round is 0",
    "another's first round is over 194",
    "an unused place has a first round",
];

/// Breaks one rule of a sound image's record, and nothing else; says which, by its place
/// in `FAULTS`, or nothing if the image has no place for it.
pub fn damage(random: &mut Random, image: &mut [u8]) -> Option<usize> {
    let Fields { number, heard, .. } = Fields::of(image);
    let own = heard.binary_search(&number).expect("the own number");
    let others: Vec<usize> = (0..heard.len()).filter(|&place| place != own).collect();
    let unused: Vec<usize> = (heard.len()..64).collect();
    let fault = random.below(FAULTS.len());
    let (places, rounds): (&[usize], &[u8]) = match fault {
        0 => (&[own], &[1, 2, 194, 195, 255]),
        1 => (&others, &[0]),
        2 => (&others, &[195, 196, 255]),
        _ => (&unused, &[1, 2, 194, 195, 255]),
    };
    let ends = [*places.first()?, *places.last()?, random.pick(places)];
    image[FIRST_ROUNDS + random.pick(&ends)] = random.pick(rounds);
    // As an image has it that is older than the record.
    if fault == 1 && random.percent(20) {
        image[FIRST_ROUNDS..][..64].fill(0);
    }
    Some(fault)
}

pub const STEPS: [&str; 5] = [
    "a first round is over the state's round",
    "a new number comes in front of another's",
    "a new number by void frames alone",
    "a new number by empty entries alone",
    "a new number by frames that differ",
];

/// For each name, whether it is so of the state and a tray that it accepts.
pub fn steps(state: &Fields, tray: &[u8]) -> [bool; STEPS.len()] {
    let mut new: BTreeMap<u32, Vec<Vec<u8>>> = BTreeMap::new();
    for entry in unpack(tray) {
        if state.heard.binary_search(&entry.sender).is_err() {
            new.entry(entry.sender).or_default().push(entry.bytes);
        }
    }
    let late = |&round: &u8| u32::from(round) > state.round;
    let moves = |n: &u32| state.heard.iter().any(|h| h > n && *h != state.number);
    let void = |bytes: &Vec<u8>| Reference::frame(bytes, state.round) != 0;
    let by = |all: &dyn Fn(&[Vec<u8>]) -> bool| new.values().any(|frames| all(frames));
    [
        state.first_rounds.iter().any(late),
        new.keys().any(moves),
        by(&|frames| frames.iter().all(void)),
        by(&|frames| frames.iter().all(Vec::is_empty)),
        by(&|frames| frames.iter().any(|frame| *frame != frames[0])),
    ]
}
