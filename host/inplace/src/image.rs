//! The image of a state: where each field lies, and how words lie in bytes.
//!
//! Nothing else knows an offset in the image or the order of a word's bytes in it.

use crate::frame::{rise, Kind, NONE};

/// The most numbers that a list holds.
pub const MAX_NUMBERS: usize = 64;

const IMAGE_LEN: usize = 1024;
const PLACES_LEN: usize = 4 * MAX_NUMBERS;
/// A list is its count, then all its places.
const LIST_LEN: usize = 4 + PLACES_LEN;

const NUMBER: usize = 0;
const ROUND: usize = 4;
const BIT: usize = 8;
const SAID: usize = 9;
const STRONG: usize = 10;
const KING: usize = 11;
const DECISION: usize = 15;
const HEARD: usize = 16;
const CANDIDATES: usize = HEARD + LIST_LEN;
const ECHOES: usize = CANDIDATES + LIST_LEN;
const FIRST_ROUNDS: usize = ECHOES + LIST_LEN;
const RESERVED: usize = FIRST_ROUNDS + MAX_NUMBERS;

pub type Image = [u8; IMAGE_LEN];
/// One byte for each place of heard.
pub type FirstRounds = [u8; MAX_NUMBERS];

/// The fields of an image but for the lists.
#[derive(Clone, Copy)]
pub struct State {
    pub number: u32,
    pub round: u32,
    /// That of the round.
    pub kind: Kind,
    pub bit: u8,
    pub said: u8,
    pub strong: u8,
    pub king: u32,
    pub decision: u8,
    /// The own number's place in heard.
    pub own: usize,
}

/// The fields as they stand in an image whose heard is sound, if that has the own number.
pub fn fields(image: &Image) -> Option<State> {
    let number = word(&image[NUMBER..]);
    let round = word(&image[ROUND..]);
    Some(State {
        number,
        round,
        kind: Kind::of_round(round),
        bit: image[BIT],
        said: image[SAID],
        strong: image[STRONG],
        king: word(&image[KING..]),
        decision: image[DECISION],
        own: heard(image).find(number).ok()?,
    })
}

/// Writes what a step may change outside the lists.
pub fn put_fields(image: &mut Image, state: &State) {
    put_word(&mut image[ROUND..], state.round);
    image[BIT] = state.bit;
    image[SAID] = state.said;
    image[STRONG] = state.strong;
    put_word(&mut image[KING..], state.king);
    image[DECISION] = state.decision;
}

pub fn heard(image: &Image) -> List<'_> {
    List::of(image, HEARD)
}

pub fn candidates(image: &Image) -> List<'_> {
    List::of(image, CANDIDATES)
}

pub fn echoes(image: &Image) -> List<'_> {
    List::of(image, ECHOES)
}

pub fn put_candidates(image: &mut Image, list: &Draft) {
    list.put(&mut image[CANDIDATES..ECHOES]);
}

pub fn put_echoes(image: &mut Image, list: &Draft) {
    list.put(&mut image[ECHOES..FIRST_ROUNDS]);
}

/// Makes a number heard, at the place that `find` gave, with its first round. Heard is not
/// full.
pub fn hear(image: &mut Image, place: usize, number: u32, round: u32) {
    let len = heard(image).len();
    put_word(&mut image[HEARD..], len as u32 + 1);
    let at = |place| HEARD + 4 + 4 * place;
    image.copy_within(at(place)..at(len), at(place + 1));
    put_word(&mut image[at(place)..], number);
    let at = |place| FIRST_ROUNDS + place;
    image.copy_within(at(place)..at(len), at(place + 1));
    image[at(place)] = round as u8;
}

pub fn first_rounds(image: &Image) -> &FirstRounds {
    part(image, FIRST_ROUNDS)
}

pub fn reserved(image: &Image) -> &[u8; IMAGE_LEN - RESERVED] {
    part(image, RESERVED)
}

fn part<const LEN: usize>(image: &Image, at: usize) -> &[u8; LEN] {
    image[at..].first_chunk().expect("a part of the image")
}

/// The image after init was sent.
pub fn start(image: &mut Image, number: u32, bit: u8) {
    image.fill(0);
    put_word(&mut image[NUMBER..], number);
    put_word(&mut image[ROUND..], 1);
    image[BIT] = bit;
    image[SAID] = NONE;
    image[DECISION] = NONE;
    put_word(&mut image[HEARD..], 1);
    put_word(&mut image[HEARD + 4..], number);
}

/// A list where it lies.
#[derive(Clone, Copy)]
pub struct List<'a> {
    places: &'a [u8; PLACES_LEN],
    /// How many numbers it has, or says that it has: a sound one has at most 64.
    len: usize,
}

impl<'a> List<'a> {
    fn of(image: &'a Image, at: usize) -> List<'a> {
        List {
            places: part(image, at + 4),
            len: word(&image[at..]) as usize,
        }
    }

    pub fn len(&self) -> usize {
        self.len
    }

    /// What stands at a place, 0 to 63; 0 where the list has no number.
    #[inline(always)]
    fn at(&self, place: usize) -> u32 {
        word(&self.places[4 * (place % MAX_NUMBERS)..])
    }

    #[inline(always)]
    pub fn get(&self, place: usize) -> Option<u32> {
        (place < self.len).then(|| self.at(place))
    }

    /// The places that have a number.
    fn used(&self) -> &'a [u8] {
        &self.places[..4 * self.len.min(MAX_NUMBERS)]
    }

    pub fn numbers(&self) -> impl Iterator<Item = u32> + 'a {
        self.used().chunks_exact(4).map(word)
    }

    /// Whether the numbers rise strictly from above 0, and all unused places are 0.
    pub fn is_sound(&self) -> bool {
        let in_use = |place: &[u8]| u32::from(place != [0; 4]);
        let places = self.places.chunks_exact(4);
        let places_in_use = places.fold(0, |sum, place| sum + in_use(place));
        // Numbers that rise are not 0. So if no more places are in use, all others are 0.
        places_in_use as usize == self.len && rise(self.used(), word)
    }

    /// Where a number stands, or else the place where it would stand. Which way a search
    /// goes cannot be foreseen, so each step is without a branch.
    pub fn find(&self, number: u32) -> Result<usize, usize> {
        let (mut place, mut left) = (0, self.len);
        while left > 1 {
            let half = left / 2;
            let below = self.at(place + half) <= number;
            place = if below { place + half } else { place };
            left -= half;
        }
        match self.get(place) {
            Some(found) if found == number => Ok(place),
            Some(found) if found < number => Err(place + 1),
            _ => Err(place),
        }
    }
}

/// A list to be made, in the bytes that it will have in the image.
pub struct Draft {
    places: [u8; PLACES_LEN],
    len: usize,
}

impl Draft {
    pub fn empty() -> Draft {
        Draft {
            places: [0; PLACES_LEN],
            len: 0,
        }
    }

    /// Adds a number over all others; nothing if the list is full.
    pub fn push(&mut self, number: u32) -> Option<()> {
        let place = self.places.get_mut(4 * self.len..4 * self.len + 4)?;
        put_word(place, number);
        self.len += 1;
        Some(())
    }

    fn put(&self, list: &mut [u8]) {
        put_word(list, self.len as u32);
        list[4..].copy_from_slice(&self.places);
    }
}

/// The word at the front of bytes, little-endian.
#[inline(always)]
fn word(bytes: &[u8]) -> u32 {
    u32::from_le_bytes(bytes[..4].try_into().expect("a word"))
}

/// Writes a word to the front of bytes.
#[inline(always)]
fn put_word(bytes: &mut [u8], word: u32) {
    bytes[..4].copy_from_slice(&word.to_le_bytes());
}
