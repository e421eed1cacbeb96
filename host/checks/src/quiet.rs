//! Decided controllers, which are quiet, and silence in trays: bits said that make a state
//! unsound, why a tray is refused under 2, and what worked trays had of silence.

use std::collections::BTreeMap;

use crate::calls::{Calls, Reference};
use crate::fields::Fields;
use crate::packing::{
    kind_of, pack, packed_len, unpack, Entry, INIT, MAX_ENTRIES, MAX_TRAY, NONE, PROPOSE, ROSTER,
    TURN, VALUE,
};
use crate::random::Random;

/// Where an image has the bit said and the decision.
const SAID: usize = 9;
const DECISION: usize = 15;

pub const FAULTS: [&str; 6] = [
    "decided in a value round, and says the own bit",
    "decided in another round, and says a bit",
    "undecided in a value round, and says none",
    "undecided in a value round, and says the other bit",
    "undecided in round 1 or 2, and says a bit",
    "says over 2",
];

/// Makes a sound image have a bit said that it may not have, by that bit or the decision,
/// and nothing else; says how, by its place in `FAULTS`, or nothing if the round is
/// another.
pub fn damage(random: &mut Random, image: &mut [u8]) -> Option<usize> {
    let state = Fields::of(image);
    let value = kind_of(state.round) == VALUE;
    let fault = random.below(FAULTS.len());
    let (fits, decision, said) = match fault {
        0 => (value, random.bit(), state.bit),
        1 => (!value, random.bit(), random.bit()),
        2 => (value, NONE, NONE),
        3 => (value, NONE, 1 - state.bit),
        4 => (state.round <= 2, NONE, random.bit()),
        _ => (true, state.decision, random.pick(&[3, 4, 255])),
    };
    if !fits {
        return None;
    }
    image[DECISION] = decision;
    image[SAID] = said;
    Some(fault)
}

pub const ENDS: [&str; 6] = [
    "undecided in round 195",
    "decided in round 195",
    "decided in round 1 or 2",
    "decided in a value round",
    "decided in a propose or turn round",
    "decided, and the output under 264 bytes",
];

/// For each name, whether it is so of a state that is refused under 2.
pub fn ends(state: &Fields, out_len: usize) -> [bool; ENDS.len()] {
    let decided = !state.undecided();
    let kind = kind_of(state.round);
    [
        !decided && state.round == 195,
        decided && state.round == 195,
        decided && state.round <= 2,
        decided && kind == VALUE,
        decided && (kind == PROPOSE || kind == TURN),
        decided && out_len < 264,
    ]
}

pub const SILENCES: [&str; 20] = [
    "silence in round 1",
    "silence in round 2",
    "silence in a value round",
    "silence in a propose round",
    "silence in a turn round",
    "it makes a difference in round 1",
    "it makes a difference in round 2",
    "it makes a difference in a value round",
    "it makes a difference in a propose round",
    "it makes a difference in a turn round",
    "it makes a difference to whether one decides",
    "all others are silent",
    "silence where the own proposal is none",
    "the king is silent",
    "the king is silent, and the own turn has an opinion",
    "silence beside a void frame of one heard",
    "silence beside an empty entry of one heard",
    "silence beside several frames of one heard",
    "silence beside a new number",
    "nobody is silent",
];

/// For each name, whether it is so of a state and a tray that it accepts. To make a
/// difference is to lead to another state than empty entries would in its place.
pub fn silences(state: &Fields, tray: &[u8], after: &[u8]) -> [bool; SILENCES.len()] {
    let entries = unpack(tray);
    let mut frames: BTreeMap<u32, Vec<&[u8]>> = BTreeMap::new();
    for entry in &entries {
        frames.entry(entry.sender).or_default().push(&entry.bytes);
    }
    let has_none = |n: &&u32| **n != state.number && !frames.contains_key(n);
    let silent: Vec<u32> = state.heard.iter().filter(has_none).copied().collect();
    let is_heard = |n: &u32| state.heard.binary_search(n).is_ok();
    let heard = || frames.iter().filter(|(n, _)| is_heard(n));
    let void = |bytes: &&[u8]| Reference::frame(bytes, state.round) != 0;
    let some = !silent.is_empty();
    let other = with_empty_entries(state, entries.clone(), &silent);
    let differs = other.as_deref().is_some_and(|other| other != after);
    let decides = |image: &[u8]| !Fields::of(image).undecided();
    let other_end = other.is_some_and(|other| decides(&other) != decides(after));
    let king = silent.contains(&state.king);
    let kind = kind_of(state.round);
    [
        some && kind == INIT,
        some && kind == ROSTER,
        some && kind == VALUE,
        some && kind == PROPOSE,
        some && kind == TURN,
        differs && kind == INIT,
        differs && kind == ROSTER,
        differs && kind == VALUE,
        differs && kind == PROPOSE,
        differs && kind == TURN,
        other_end,
        some && frames.is_empty(),
        some && kind == PROPOSE && state.said == NONE,
        king && kind == TURN,
        king && kind == TURN && state.said != NONE,
        some && heard().any(|(_, frames)| frames.len() == 1 && frames.iter().all(void)),
        some && heard().any(|(_, frames)| frames.len() == 1 && frames[0].is_empty()),
        some && heard().any(|(_, frames)| frames.iter().any(|frame| *frame != frames[0])),
        some && !frames.keys().all(is_heard),
        !some,
    ]
}

/// The state that a tray makes if who is silent has an empty entry instead; nothing if
/// nobody is, or if so many do not fit.
fn with_empty_entries(state: &Fields, mut entries: Vec<Entry>, silent: &[u32]) -> Option<Vec<u8>> {
    entries.extend(silent.iter().map(|&sender| Entry {
        sender,
        bytes: Vec::new(),
    }));
    if silent.is_empty() || entries.len() > MAX_ENTRIES || packed_len(&entries) > MAX_TRAY {
        return None;
    }
    let mut image = state.image();
    let tray = pack(state.round, &entries);
    let answer = Reference::tray(&mut image, &tray, &mut [0; 264], &mut 0);
    (answer == 0).then_some(image)
}
