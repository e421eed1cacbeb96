//! What an accepted tray did, so that a test can tell whether its trays came to the
//! edges of the rules.

use crate::fields::Fields;
use crate::packing::{kind_of, NONE, PROPOSE, TURN, VALUE};

pub const NAMES: [&str; 14] = [
    "64 heard",
    "64 candidates",
    "64 echoes",
    "candidates join",
    "an echo is no candidate yet",
    "the king changes the own bit",
    "proposals change the own bit",
    "becomes strong",
    "stops being strong",
    "proposes a bit",
    "proposes none",
    "is king and sends its opinion",
    "decides",
    "makes round 195",
];

/// For each name, whether the step from one state to the next was so.
pub fn edges(before: &Fields, after: &Fields) -> [bool; NAMES.len()] {
    let made = kind_of(after.round);
    let bit_changed = before.bit != after.bit;
    let joined = after.candidates.len() > before.candidates.len();
    let waits = |n: &u32| after.candidates.binary_search(n).is_err();
    [
        after.heard.len() == 64,
        made == VALUE && joined && after.candidates.len() == 64,
        made == VALUE && after.echoes.len() == 64,
        joined,
        made == VALUE && after.echoes.iter().any(waits),
        made == VALUE && bit_changed,
        made == TURN && bit_changed,
        made == TURN && after.strong > before.strong,
        made == TURN && after.strong < before.strong,
        made == PROPOSE && after.said != NONE,
        made == PROPOSE && after.said == NONE,
        made == TURN && after.said != NONE,
        before.undecided() && !after.undecided(),
        after.round == 195,
    ]
}
