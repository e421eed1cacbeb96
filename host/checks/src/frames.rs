//! Single frames, whole and damaged, with the round in which they are read.

use crate::packing::{frame, has_list, kind_of, INIT, NONE, ROSTER, VALUE};
use crate::random::Random;
use crate::voids::damaged;

/// Mostly a frame of the round, damaged up to twice; some are read in another
/// round, or in one that no frame has.
pub fn frame_and_round(random: &mut Random, pool: &[u32]) -> (Vec<u8>, u32) {
    let round = match random.below(10) {
        0..=2 => random.within(1, 2) as u32,
        3 => random.pick(&[0, 194, 195, 196, 197, 198, u32::MAX]),
        _ => random.within(3, 195) as u32,
    };
    let mut bytes = whole(random, pool, round);
    for _ in 0..random.below(3) {
        if bytes.len() >= 8 {
            bytes = damaged(random, &bytes, round);
        }
    }
    (bytes, round_read(random, round))
}

/// A frame of the round's kind with all that the kind allows.
fn whole(random: &mut Random, pool: &[u32], round: u32) -> Vec<u8> {
    let kind = kind_of(round);
    let bit = match kind {
        INIT | ROSTER => NONE,
        VALUE => random.bit(),
        _ => random.below(3) as u8,
    };
    let size = random.pick(&[0, 1, 2, 3, 4, 5, 63, 64]);
    let numbers = random.some(pool, if has_list(kind) { size } else { 0 });
    frame(round, bit, &numbers)
}

fn round_read(random: &mut Random, round: u32) -> u32 {
    match random.below(20) {
        0 => round.wrapping_add(1),
        1 => round.wrapping_sub(1),
        2 => round.wrapping_add(3),
        3 => random.pick(&[0, 1, 2, 195, 196, round ^ 1 << 8, u32::MAX]),
        _ => round,
    }
}
