//! When an image is sound: one pass over its bytes, where they lie.

use crate::frame::{Kind, LAST_ROUND, NONE};
use crate::image::{self, FirstRounds, Image, State};

/// The state in an image; nothing if it is not sound.
pub fn read(image: &Image) -> Option<State> {
    let heard = image::heard(image);
    if !heard.is_sound() {
        return None;
    }
    let state = image::fields(image)?;
    let (candidates, echoes) = (image::candidates(image), image::echoes(image));
    let sound = is_zero(image::reserved(image))
        && has_sound_fields(&state)
        && candidates.is_sound()
        && echoes.is_sound()
        && (state.round > 2 || candidates.len() == 0)
        && (state.round > 1 || echoes.len() == 0)
        && is_record(image::first_rounds(image), heard.len(), state.own);
    sound.then_some(state)
}

fn has_sound_fields(state: &State) -> bool {
    (1..=LAST_ROUND).contains(&state.round)
        && state.bit <= 1
        && state.strong <= 1
        && state.decision <= NONE
        && has_sound_said(state)
}

/// Whether the bit said is one for a frame of the round; a decided one sends none.
fn has_sound_said(state: &State) -> bool {
    if state.decision != NONE {
        return state.said == NONE;
    }
    match state.kind {
        Kind::Init | Kind::Roster => state.said == NONE,
        Kind::Value => state.said == state.bit,
        Kind::Propose | Kind::Turn => state.said <= NONE,
    }
}

/// Whether the first rounds are 0 for the own number and in unused places, and those of
/// trays for all others heard.
fn is_record(rounds: &FirstRounds, heard: usize, own: usize) -> bool {
    let (heard, own) = (heard as u8, own as u8);
    let mut sound = true;
    for (place, &round) in (0..).zip(rounds) {
        let others = (place < heard) & (place != own);
        sound &= (others == (round != 0)) & (round < LAST_ROUND as u8);
    }
    sound
}

/// Whether all bytes are 0, without an early way out.
fn is_zero(bytes: &[u8]) -> bool {
    bytes.iter().fold(0, |all, byte| all | byte) == 0
}
