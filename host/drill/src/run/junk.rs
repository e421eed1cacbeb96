//! Junk from the cable: bytes that are handed over as if they were a tray.

use checks::packing::{pack, Entry};
use checks::random::Random;

use crate::scenario::{Junk, MOST_ON_LINE};

/// How many bytes of noise the cable gives at most.
const MOST_NOISE: usize = 40;

/// The bytes for a receiver in a round, whose tray is given.
pub fn bytes(junk: &Junk, random: &mut Random, round: u32, receiver: u32, tray: &[u8]) -> Vec<u8> {
    let empty = |sender| Entry {
        sender,
        bytes: Vec::new(),
    };
    match junk {
        Junk::Noise => {
            let length = random.within(1, MOST_NOISE);
            random.bytes(length)
        }
        Junk::Cut => tray[..tray.len() - 1].to_vec(),
        Junk::Old => {
            let mut old = tray.to_vec();
            old[..4].copy_from_slice(&(round - 1).to_be_bytes());
            old
        }
        Junk::Forged => pack(round, &[empty(receiver)]),
        Junk::Crowd => {
            let others = (1..).filter(|&number| number != receiver);
            let crowd: Vec<Entry> = others.take(MOST_ON_LINE + 1).map(empty).collect();
            pack(round, &crowd)
        }
        Junk::Bytes(bytes) => bytes.clone(),
    }
}
