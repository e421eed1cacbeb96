//! The agreement engine of one controller once more, for speed only.
//!
//! This is the benchmark's second yardstick: the calls of `include/controller.h` over
//! slices, as the `reference` has them, but worked in the image. Lists are searched and
//! read where they lie in its bytes, and written only by a step that counts some. With new
//! senders a copy of the image is worked. The `reference` is the one for trust; this one
//! is held to be equal to it, and shares no code with it.
//!
//! - `image` says where fields lie in an image and how its words lie in bytes;
//! - `sound` tests an image;
//! - `frame` reads and writes frames;
//! - `tray` reads a tray's directory;
//! - `received` finds each sender's frame;
//! - `lists` makes candidates and echoes of the lists received, `tally` counts for it;
//! - `step` makes the next round from a tray.

#![forbid(unsafe_code)]

mod frame;
mod image;
mod lists;
mod received;
mod sound;
mod step;
mod tally;
mod tray;

use frame::{Kind, LAST_ROUND, MAX_FRAME, NONE};
use image::{Image, State};

/// Why a call was refused, with document 01's numbers.
#[derive(Clone, Copy, Debug, PartialEq, Eq)]
#[repr(u8)]
enum Refusal {
    StateNotSound = 1,
    /// The last round is sent, or the controller has decided.
    Ended = 2,
    ShortOutput = 3,
    BadLayout = 4,
    OtherRound = 5,
    BadSender = 6,
    TooManyHeard = 7,
    TooManyListed = 8,
    BadStart = 9,
}

/// Starts a controller with its number and its input, a bit.
/// The image is written, not read.
pub fn start(number: u32, bit: u8, image: &mut [u8], out: &mut [u8], length: &mut usize) -> u8 {
    answer(try_start(number, bit, image, out), length)
}

/// Works one tray: moves the state to the next round and writes its frame. The call that
/// decides sends none: it writes nothing, and the length is 0.
pub fn tray(image: &mut [u8], tray: &[u8], out: &mut [u8], length: &mut usize) -> u8 {
    answer(try_tray(image, tray, out), length)
}

/// The decision: 0, 1, or 2 for none; 255 for an image that is not sound.
pub fn decision(image: &[u8]) -> u8 {
    sound_state(image).map_or(255, |(_, state)| state.decision)
}

/// The last round sent, or the round of the decision; 0 for an image that is not sound.
pub fn round(image: &[u8]) -> u32 {
    sound_state(image).map_or(0, |(_, state)| state.round)
}

/// The king, 0 for none; 0 for an image that is not sound.
pub fn king(image: &[u8]) -> u32 {
    sound_state(image).map_or(0, |(_, state)| state.king)
}

/// How many numbers were heard; 0 for an image that is not sound.
pub fn heard(image: &[u8]) -> u32 {
    sound_state(image).map_or(0, |(image, _)| image::heard(image).len() as u32)
}

/// The i-th heard number, from 0, in rising order; 0 past the end and for an image that
/// is not sound.
pub fn heard_number(image: &[u8], i: u32) -> u32 {
    let number = |(image, _)| image::heard(image).get(i as usize).unwrap_or(0);
    sound_state(image).map_or(0, number)
}

/// The round of the tray that first brought the i-th heard number; 0 for the own one,
/// past the end and for an image that is not sound.
pub fn first_round(image: &[u8], i: u32) -> u32 {
    let round = |(image, _)| image::first_rounds(image).get(i as usize).copied();
    u32::from(sound_state(image).and_then(round).unwrap_or(0))
}

/// How many candidates there are; 0 for an image that is not sound.
pub fn candidates(image: &[u8]) -> u32 {
    sound_state(image).map_or(0, |(image, _)| image::candidates(image).len() as u32)
}

/// How many echoes there are; 0 for an image that is not sound.
pub fn echoes(image: &[u8]) -> u32 {
    sound_state(image).map_or(0, |(image, _)| image::echoes(image).len() as u32)
}

/// 0 for a frame of a round, else why the bytes are void for it.
pub fn frame(bytes: &[u8], round: u32) -> u8 {
    frame::why_void(bytes, round).map_or(0, |void| void as u8)
}

fn sound_state(image: &[u8]) -> Option<(&Image, State)> {
    let image = image.try_into().ok()?;
    Some((image, sound::read(image)?))
}

fn answer(result: Result<usize, Refusal>, length: &mut usize) -> u8 {
    *length = result.unwrap_or(0);
    result.map_or_else(|refusal| refusal as u8, |_| 0)
}

fn try_start(number: u32, bit: u8, image: &mut [u8], out: &mut [u8]) -> Result<usize, Refusal> {
    let image: &mut Image = image.try_into().map_err(|_| Refusal::StateNotSound)?;
    if number == 0 || bit > 1 {
        return Err(Refusal::BadStart);
    }
    let out = out.first_chunk_mut().ok_or(Refusal::ShortOutput)?;
    image::start(image, number, bit);
    Ok(frame::write(1, Kind::Init, NONE, image::echoes(image), out))
}

fn try_tray(image: &mut [u8], tray: &[u8], out: &mut [u8]) -> Result<usize, Refusal> {
    let image: &mut Image = image.try_into().map_err(|_| Refusal::StateNotSound)?;
    let state = sound::read(image).ok_or(Refusal::StateNotSound)?;
    if state.round == LAST_ROUND || state.decision != NONE {
        return Err(Refusal::Ended);
    }
    let out: &mut [u8; MAX_FRAME] = out.first_chunk_mut().ok_or(Refusal::ShortOutput)?;
    step::work(image, state, tray, out)
}
