//! Several entries under one number, so that a test can tell whether its trays had
//! each kind of them.

use std::collections::BTreeMap;

use crate::calls::{Calls, Reference};
use crate::packing::unpack;

pub const NAMES: [&str; 5] = [
    "equal copies",
    "copies that differ in one byte",
    "a void frame beside a good one",
    "two different void frames",
    "an empty entry beside a good one",
];

/// For each name, whether the well packed tray has such entries under some number.
pub fn copies(tray: &[u8], round: u32) -> [bool; NAMES.len()] {
    let mut firsts = BTreeMap::new();
    let mut has = [false; NAMES.len()];
    for entry in unpack(tray) {
        let Some(first) = firsts.get(&entry.sender) else {
            firsts.insert(entry.sender, entry.bytes);
            continue;
        };
        for (has, is) in has.iter_mut().zip(kinds(first, &entry.bytes, round)) {
            *has |= is;
        }
    }
    has
}

fn kinds(one: &[u8], other: &[u8], round: u32) -> [bool; NAMES.len()] {
    let good = |bytes| Reference::frame(bytes, round) == 0;
    let mixed = good(one) != good(other);
    let void = !good(one) && !good(other);
    [
        one == other,
        one.len() == other.len() && one.iter().zip(other).filter(|(a, b)| a != b).count() == 1,
        mixed,
        void && one != other,
        mixed && (one.is_empty() || other.is_empty()),
    ]
}
