//! Words cut short to fit a box, whatever the reader's font.

use crate::facts::{Reading, Told};
use crate::scenario::Saying;

/// About how many pixels wide a text is. Measured by DejaVu Sans, which is wider than most.
pub fn width(text: &str, size: u32) -> u32 {
    let hundredths = |c: char| match c {
        ' ' | 'i' | 'j' | 'l' | '.' | ',' | ';' | ':' => 33,
        'f' | 'r' | 't' | '-' => 41,
        's' => 54,
        'm' | 'w' | 'M' | 'W' => 98,
        _ => 64,
    };
    (text.chars().map(hundredths).sum::<u32>() * size).div_ceil(100)
}

/// The first of these that fits, else the last.
pub fn fitting<const N: usize>(choices: [String; N], size: u32, room: u32) -> String {
    let place = choices.iter().position(|text| width(text, size) <= room);
    let mut choices = Vec::from(choices);
    choices.swap_remove(place.unwrap_or(N - 1))
}

/// What was sent or told, in words that fit.
pub fn words(told: &Told, size: u32, room: u32) -> String {
    fitting([told.to_string(), shorter(told)], size, room)
}

/// The same without the numbers that it lists.
fn shorter(told: &Told) -> String {
    match told.0.as_slice() {
        [Reading::Says(Saying::Lists(list))] => format!("a list of {}", list.len()),
        [Reading::Says(Saying::Opinion(bit, _))] => Saying::Opinion(*bit, Vec::new()).to_string(),
        [] | [_] => told.to_string(),
        frames => format!("{} frames", frames.len()),
    }
}
