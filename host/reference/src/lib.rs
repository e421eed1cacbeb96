//! The agreement engine of one controller, in plain Rust.
//!
//! This is written from documents 01 and 02 alone and shares nothing with the compiled
//! engine: it is what the compiled engine is compared with, and the yardstick
//! of the benchmark. It has the calls of `include/controller.h`, over slices:
//! a host lends a state image of 1,024 bytes, an output buffer and a number for
//! the frame's length. Nothing is kept between calls, nothing is allocated, and
//! a refused call changes nothing but the length, which becomes 0.
//!
//! - [`frame`] reads and writes frames;
//! - `tray` reads a tray's directory and finds each sender's frame;
//! - `state` is the state, its image, and when it is sound;
//! - `count` has the two thresholds and the tally of lists;
//! - `step` makes the next round from a tray.

#![forbid(unsafe_code)]

mod count;
pub mod frame;
mod list;
mod state;
mod step;
mod tray;

pub use count::{reaches_third, reaches_two_thirds};
pub use state::IMAGE_LEN;

use frame::{LAST_ROUND, MAX_FRAME, NONE};
use state::State;

/// Why a call was refused, with document 01's numbers.
#[derive(Clone, Copy, Debug, PartialEq, Eq)]
#[repr(u8)]
pub enum Refusal {
    StateNotSound = 1,
    /// The last round is sent, or the controller has decided.
    Ended = 2,
    ShortOutput = 3,
    BadLayout = 4,
    OtherRound = 5,
    BadSender = 6,
    TooManyHeard = 7,
    TooManyListed = 8,
    BadStart = 9,
}

/// Starts a controller with its number and its input, a bit.
/// The image is written, not read.
pub fn start(number: u32, bit: u8, image: &mut [u8], out: &mut [u8], length: &mut usize) -> u8 {
    answer(try_start(number, bit, image, out), length)
}

/// Works one tray: moves the state to the next round and writes its frame. The call that
/// decides sends none: it writes nothing, and the length is 0.
pub fn tray(image: &mut [u8], tray: &[u8], out: &mut [u8], length: &mut usize) -> u8 {
    answer(try_tray(image, tray, out), length)
}

/// The decision: 0, 1, or 2 for none; 255 for an image that is not sound.
pub fn decision(image: &[u8]) -> u8 {
    sound_state(image).map_or(255, |state| state.decision)
}

/// The last round sent, or the round of the decision; 0 for an image that is not sound.
pub fn round(image: &[u8]) -> u32 {
    sound_state(image).map_or(0, |state| state.round)
}

/// The king, 0 for none; 0 for an image that is not sound.
pub fn king(image: &[u8]) -> u32 {
    sound_state(image).map_or(0, |state| state.king)
}

/// How many numbers were heard; 0 for an image that is not sound.
pub fn heard(image: &[u8]) -> u32 {
    sound_state(image).map_or(0, |state| state.heard.len() as u32)
}

/// The i-th heard number, from 0, in rising order; 0 past the end and for an image that
/// is not sound.
pub fn heard_number(image: &[u8], i: u32) -> u32 {
    sound_state(image).map_or(0, |state| at(state.heard.as_slice(), i))
}

/// The round of the tray that first brought the i-th heard number; 0 for the own one,
/// past the end and for an image that is not sound.
pub fn first_round(image: &[u8], i: u32) -> u32 {
    sound_state(image).map_or(0, |state| u32::from(at(&state.first_rounds, i)))
}

/// How many candidates there are; 0 for an image that is not sound.
pub fn candidates(image: &[u8]) -> u32 {
    sound_state(image).map_or(0, |state| state.candidates.len() as u32)
}

/// How many echoes there are; 0 for an image that is not sound.
pub fn echoes(image: &[u8]) -> u32 {
    sound_state(image).map_or(0, |state| state.echoes.len() as u32)
}

/// 0 for a frame of a round, else why the bytes are void for it.
pub fn frame(bytes: &[u8], round: u32) -> u8 {
    frame::read(bytes, round).map_or_else(|void| void as u8, |_| 0)
}

fn sound_state(image: &[u8]) -> Option<State> {
    let mut state = State::blank();
    state.load(image)?;
    Some(state)
}

/// What stands at a place, 0 past the end.
fn at<T: Copy + Default>(places: &[T], i: u32) -> T {
    places.get(i as usize).copied().unwrap_or_default()
}

fn answer(result: Result<usize, Refusal>, length: &mut usize) -> u8 {
    *length = result.unwrap_or(0);
    result.map_or_else(|refusal| refusal as u8, |_| 0)
}

fn try_start(number: u32, bit: u8, image: &mut [u8], out: &mut [u8]) -> Result<usize, Refusal> {
    let image = image.try_into().map_err(|_| Refusal::StateNotSound)?;
    if number == 0 || bit > 1 {
        return Err(Refusal::BadStart);
    }
    if out.len() < MAX_FRAME {
        return Err(Refusal::ShortOutput);
    }
    let state = State::started(number, bit);
    state.write(image);
    Ok(frame::write(state.round, NONE, &[], out))
}

fn try_tray(image: &mut [u8], tray: &[u8], out: &mut [u8]) -> Result<usize, Refusal> {
    let mut state = State::blank();
    state.load(image).ok_or(Refusal::StateNotSound)?;
    if state.round == LAST_ROUND || !state.undecided() {
        return Err(Refusal::Ended);
    }
    if out.len() < MAX_FRAME {
        return Err(Refusal::ShortOutput);
    }
    let directory = tray::Directory::read(tray).ok_or(Refusal::BadLayout)?;
    if directory.round() != state.round {
        return Err(Refusal::OtherRound);
    }
    if directory.has_bad_sender(state.number) {
        return Err(Refusal::BadSender);
    }
    let mut received = tray::Received::empty();
    directory
        .hear(&mut state, &mut received)
        .ok_or(Refusal::TooManyHeard)?;
    step::make_next_round(&mut state, &received)?;
    let image = image.try_into().map_err(|_| Refusal::StateNotSound)?;
    state.write(image);
    if !state.undecided() {
        return Ok(0);
    }
    Ok(frame::write(
        state.round,
        state.said,
        state.list_sent(),
        out,
    ))
}
