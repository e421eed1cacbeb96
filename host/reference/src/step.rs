//! From one tray to the next frame.

use crate::count::{reaches_third, reaches_two_thirds, Tally, MAX_LISTED};
use crate::frame::{Kind, NONE};
use crate::list::List;
use crate::state::State;
use crate::tray::Received;
use crate::Refusal;

const FEW_LISTED: usize = 256;

/// Makes the round after an undecided state's. The tray's senders are in `heard` already.
///
/// A silent one counts as having sent what one sent oneself, opinions apart. So what one
/// sent oneself is counted once more for each of them, and no silent king is listened to.
pub fn make_next_round(state: &mut State, received: &Received) -> Result<(), Refusal> {
    match Kind::of_round(state.round + 1) {
        // No round comes before init: round 2 is the first one made here.
        Kind::Init | Kind::Roster => make_roster(state, received),
        Kind::Value => make_value(state, received)?,
        Kind::Propose => make_propose(state, received),
        Kind::Turn => make_turn(state, received),
    }
    state.round += 1;
    Ok(())
}

/// The roster lists the senders of init. Oneself and the silent ones have no entry, and
/// are among them.
fn make_roster(state: &mut State, received: &Received) {
    let mut echoes = List::empty();
    for (place, &number) in state.heard.as_slice().iter().enumerate() {
        if !received.has_entry(place) || received.frame_at(place, state).is_some() {
            echoes.push(number);
        }
    }
    state.echoes = echoes;
}

fn make_value(state: &mut State, received: &Received) -> Result<(), Refusal> {
    let phase = (state.round as usize + 1 - 3) / 3;
    if phase >= 1 && !state.strong {
        if let Some(opinion) = opinion_of_king(state, received) {
            state.bit = opinion;
        }
    }
    // Lists are short in most rounds; a small tally is made far quicker.
    if state.echoes.len() + received.most_listed() <= FEW_LISTED {
        count_lists::<FEW_LISTED>(state, received)?;
    } else {
        count_lists::<MAX_LISTED>(state, received)?;
    }
    match state.candidates.as_slice().get(phase) {
        Some(&king) => {
            state.king = king;
            state.said = state.bit;
        }
        None => decide(state),
    }
    Ok(())
}

/// The own bit is the decision. From here on nothing is sent.
fn decide(state: &mut State) {
    state.decision = state.bit;
    state.king = 0;
    state.said = NONE;
}

/// The opinion 0 or 1 in the king's turn frame; one may be king oneself.
fn opinion_of_king(state: &State, received: &Received) -> Option<u8> {
    let bit = if state.king == state.number {
        state.said
    } else {
        let place = state.heard.find(state.king).ok()?;
        received.frame_at(place, state)?.bit
    };
    (bit != NONE).then_some(bit)
}

/// Echoes the numbers that a third lists, and makes candidates of those that
/// two thirds list. Old candidates are left as they are.
fn count_lists<const ROOM: usize>(state: &mut State, received: &Received) -> Result<(), Refusal> {
    let times = 1 + received.silent(state);
    let mut tally = Tally::<ROOM>::of(state.echoes.as_slice(), times);
    for frame in received.frames(state) {
        tally.add(&frame);
    }
    let heard = state.heard.len();
    let mut echoes = List::empty();
    let mut joining = List::empty();
    tally.each(|number, count| {
        if !reaches_third(count, heard) || state.candidates.find(number).is_ok() {
            return Ok(());
        }
        let joins = reaches_two_thirds(count, heard);
        match echoes.push(number) && (!joins || joining.push(number)) {
            true => Ok(()),
            false => Err(Refusal::TooManyListed),
        }
    })?;
    state.echoes = echoes;
    state.candidates = merged(&state.candidates, &joining).ok_or(Refusal::TooManyListed)?;
    Ok(())
}

/// Two lists without a common number as one; nothing if over 64 would be in it.
fn merged(a: &List, b: &List) -> Option<List> {
    let mut both = List::empty();
    let (mut a, mut b) = (a.as_slice(), b.as_slice());
    while let (Some((&x, after_x)), Some((&y, after_y))) = (a.split_first(), b.split_first()) {
        let free = if x < y {
            a = after_x;
            both.push(x)
        } else {
            b = after_y;
            both.push(y)
        };
        if !free {
            return None;
        }
    }
    a.iter().chain(b).all(|&n| both.push(n)).then_some(both)
}

/// A proposal is the bit that two thirds hold.
fn make_propose(state: &mut State, received: &Received) {
    let votes = votes(state, received);
    let heard = state.heard.len();
    state.said = (0..NONE)
        .find(|&bit| reaches_two_thirds(votes[usize::from(bit)], heard))
        .unwrap_or(NONE);
}

fn make_turn(state: &mut State, received: &Received) {
    let votes = votes(state, received);
    let heard = state.heard.len();
    match (
        reaches_third(votes[0], heard),
        reaches_third(votes[1], heard),
    ) {
        (true, false) => state.bit = 0,
        (false, true) => state.bit = 1,
        _ => (),
    }
    state.strong = reaches_two_thirds(votes[usize::from(state.bit)], heard);
    state.said = if state.king == state.number {
        state.bit
    } else {
        NONE
    };
}

/// How many say 0, 1 and none; the own last frame counts as received, from oneself and
/// from each silent one.
fn votes(state: &State, received: &Received) -> [usize; 3] {
    let mut votes = [0; 3];
    votes[usize::from(state.said)] += 1 + received.silent(state);
    for frame in received.frames(state) {
        votes[usize::from(frame.bit)] += 1;
    }
    votes
}
