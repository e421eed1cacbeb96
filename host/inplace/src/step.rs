//! From one tray to the next frame.

use crate::frame::{self, Kind, MAX_FRAME, NONE};
use crate::image::{self, Draft, Image, State, MAX_NUMBERS};
use crate::received::Received;
use crate::tally::{reaches_third, reaches_two_thirds};
use crate::tray::Tray;
use crate::{lists, Refusal};

/// Makes the round after an undecided state's and writes its frame.
pub fn work(
    image: &mut Image,
    mut state: State,
    tray: &[u8],
    out: &mut [u8; MAX_FRAME],
) -> Result<usize, Refusal> {
    let tray = Tray::read(tray).ok_or(Refusal::BadLayout)?;
    if tray.round != state.round {
        return Err(Refusal::OtherRound);
    }
    make(image, &mut state, tray)?;
    image::put_fields(image, &state);
    if state.decision != NONE {
        return Ok(0);
    }
    let echoes = image::echoes(image);
    Ok(frame::write(
        state.round,
        state.kind,
        state.said,
        echoes,
        out,
    ))
}

fn make(image: &mut Image, state: &mut State, tray: Tray) -> Result<(), Refusal> {
    let heard = image::heard(image);
    let mut received = Received::none(tray, heard.len());
    if received.read(heard).is_none() {
        return make_with_new(image, state, tray);
    }
    if received.has_entry(state.own) {
        return Err(Refusal::BadSender);
    }
    make_next_round(image, state, &received)
}

/// Where a sender is not heard yet: in a copy, since heard is made before the step is known
/// to succeed.
#[cold]
fn make_with_new(image: &mut Image, state: &mut State, tray: Tray) -> Result<(), Refusal> {
    let mut copy = *image;
    hear(&mut copy, state, &tray)?;
    let heard = image::heard(&copy);
    let mut received = Received::none(tray, heard.len());
    received.read(heard).expect("all senders are heard");
    make_next_round(&mut copy, state, &received)?;
    *image = copy;
    Ok(())
}

/// Makes every sender of a tray heard.
fn hear(image: &mut Image, state: &State, tray: &Tray) -> Result<(), Refusal> {
    let is_bad = |(sender, _)| sender == 0 || sender == state.number;
    if tray.entries().any(is_bad) {
        return Err(Refusal::BadSender);
    }
    for (sender, _) in tray.entries() {
        let heard = image::heard(image);
        if let Err(place) = heard.find(sender) {
            if heard.len() == MAX_NUMBERS {
                return Err(Refusal::TooManyHeard);
            }
            image::hear(image, place, sender, state.round);
        }
    }
    Ok(())
}

/// Makes the next round in the state and in the lists of the image.
///
/// A silent one counts as having sent what one sent oneself, opinions apart. So what one
/// sent oneself is counted once more for each of them, and no silent king is listened to.
fn make_next_round(
    image: &mut Image,
    state: &mut State,
    received: &Received,
) -> Result<(), Refusal> {
    match state.kind {
        Kind::Init => make_roster(image, state, received),
        Kind::Value => make_propose(state, received),
        Kind::Propose => make_turn(state, received),
        Kind::Roster | Kind::Turn => make_value(image, state, received)?,
    }
    state.round += 1;
    state.kind = Kind::of_round(state.round);
    Ok(())
}

/// The roster lists the senders of init. Oneself and the silent ones have no entry, and
/// are among them.
fn make_roster(image: &mut Image, state: &State, received: &Received) {
    let init = frame::short(state.round, state.kind, NONE);
    let mut echoes = Draft::empty();
    for (place, number) in image::heard(image).numbers().enumerate() {
        if !received.has_entry(place) || received.frame_at(place) == init {
            echoes.push(number);
        }
    }
    image::put_echoes(image, &echoes);
}

/// A proposal is the bit that two thirds hold.
fn make_propose(state: &mut State, received: &Received) {
    let votes = votes(state, received);
    state.said = match votes.map(|votes| reaches_two_thirds(votes, received.heard)) {
        [true, _] => 0,
        [false, true] => 1,
        [false, false] => NONE,
    };
}

fn make_turn(state: &mut State, received: &Received) {
    let votes = votes(state, received);
    match votes.map(|votes| reaches_third(votes, received.heard)) {
        [true, false] => state.bit = 0,
        [false, true] => state.bit = 1,
        _ => (),
    }
    let strong = reaches_two_thirds(votes[usize::from(state.bit)], received.heard);
    state.strong = u8::from(strong);
    let is_king = state.king == state.number;
    state.said = if is_king { state.bit } else { NONE };
}

/// How many say 0 and 1; the own last frame counts as received, from oneself and from
/// each silent one.
fn votes(state: &State, received: &Received) -> [usize; 2] {
    let frames = [0, 1].map(|bit| frame::short(state.round, state.kind, bit));
    let mut votes = received.votes(frames);
    if let Some(votes) = votes.get_mut(usize::from(state.said)) {
        *votes += 1 + received.silent();
    }
    votes
}

fn make_value(image: &mut Image, state: &mut State, received: &Received) -> Result<(), Refusal> {
    let phase = (state.round as usize + 1 - 3) / 3;
    if phase >= 1 && state.strong == 0 {
        if let Some(opinion) = opinion_of_king(image, state, received) {
            state.bit = opinion;
        }
    }
    lists::count(image, state, received)?;
    match image::candidates(image).get(phase) {
        Some(king) => {
            state.king = king;
            state.said = state.bit;
        }
        // From here on nothing is sent.
        None => {
            state.decision = state.bit;
            state.king = 0;
            state.said = NONE;
        }
    }
    Ok(())
}

/// The opinion 0 or 1 in the king's turn frame; one may be king oneself.
fn opinion_of_king(image: &Image, state: &State, received: &Received) -> Option<u8> {
    let bit = if state.king == state.number {
        state.said
    } else {
        let place = image::heard(image).find(state.king).ok()?;
        let bytes = received.frame_at(place);
        if frame::why_void(bytes, state.round).is_some() {
            return None;
        }
        frame::bit(bytes)
    };
    (bit != NONE).then_some(bit)
}
