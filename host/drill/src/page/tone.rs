//! How what was told is coloured: by the bit in it, or by why there is none.

use crate::facts::{Reading, Told};
use crate::scenario::Saying;

#[derive(Clone, Copy, Debug, PartialEq, Eq)]
pub enum Tone {
    Zero,
    One,
    /// It reads, and has no bit.
    Plain,
    /// It counts for nothing: it does not read, or is two frames that differ.
    Void,
    Silent,
}

impl Tone {
    pub const ALL: [Tone; 5] = [Tone::Zero, Tone::One, Tone::Plain, Tone::Void, Tone::Silent];

    pub fn of(told: &Told) -> Tone {
        let Some((first, others)) = told.0.split_first() else {
            return Tone::Silent;
        };
        if others.iter().any(|other| other != first) {
            return Tone::Void;
        }
        let Reading::Says(saying) = first else {
            return Tone::Void;
        };
        match saying {
            Saying::Value(0) | Saying::Propose(0) | Saying::Opinion(0, _) => Tone::Zero,
            Saying::Value(1) | Saying::Propose(1) | Saying::Opinion(1, _) => Tone::One,
            _ => Tone::Plain,
        }
    }

    /// The class in lanes.css.
    pub fn class(self) -> &'static str {
        match self {
            Tone::Zero => "t0",
            Tone::One => "t1",
            Tone::Plain => "tp",
            Tone::Void => "tv",
            Tone::Silent => "ts",
        }
    }

    /// One sign for it, where a line is too long for words.
    pub fn sign(self) -> char {
        match self {
            Tone::Zero => '0',
            Tone::One => '1',
            Tone::Plain => '–',
            Tone::Void => '×',
            Tone::Silent => '○',
        }
    }
}
