//! Void frames of every kind, made from a frame that reads.

use crate::packing::{frame, has_list, kind_of};
use crate::random::Random;

/// A frame that is void for its round (for a few lists, by luck, it is not).
pub fn damaged(random: &mut Random, good: &[u8], round: u32) -> Vec<u8> {
    let mut bytes = good.to_vec();
    match random.below(13) {
        0 => bytes.clear(),
        1 => bytes[random.below(4)] ^= 1 << random.below(8),
        2 => bytes[4] = random.pick(&[0, 1, 2, 3, 4, 5, 6, 255]),
        3 => bytes[5] = random.pick(&[0, 1, 2, 3, 255]),
        4 => bytes[6] = random.pick(&[1, 255]),
        5 => bytes[7] = bytes[7].wrapping_add(random.pick(&[1, 255])),
        6 => bytes.push(0),
        7 => bytes.truncate(random.below(good.len())),
        8 => bytes.extend(u32::MAX.to_be_bytes()),
        9 => damage_order(random, &mut bytes),
        10 => damage_first(&mut bytes),
        11 => bytes = too_long(random, round),
        _ => bytes = random.bytes(good.len()),
    }
    bytes
}

/// Swaps two neighbours in the list, or makes them equal.
fn damage_order(random: &mut Random, bytes: &mut [u8]) {
    let count = (bytes.len() - 8) / 4;
    if count >= 2 {
        let at = 8 + 4 * random.below(count - 1);
        if random.percent(50) {
            bytes[at..at + 8].rotate_left(4);
        } else {
            bytes.copy_within(at..at + 4, at + 4);
        }
    }
}

/// Puts 0 first in the list.
fn damage_first(bytes: &mut [u8]) {
    if let Some(first) = bytes.get_mut(8..12) {
        first.fill(0);
    }
}

/// 65 numbers, or one number in a frame that carries none.
fn too_long(random: &mut Random, round: u32) -> Vec<u8> {
    let bit = random.below(3) as u8;
    let numbers: Vec<u32> = (1..=65).collect();
    let count = if has_list(kind_of(round)) { 65 } else { 1 };
    frame(round, bit, &numbers[..count])
}
