//! Trays: a directory of entries, then the frames that it names.

use crate::frame::{Frame, MAX_NUMBERS};
use crate::list::List;
use crate::{frame, state::State};

const HEADER: usize = 8;
const ENTRY: usize = 8;
const MAX_ENTRIES: usize = 256;
const MAX_TRAY: usize = 65_535;

/// The directory of a well packed tray.
pub struct Directory<'a> {
    tray: &'a [u8],
    entries: &'a [u8],
}

struct Entry {
    sender: u32,
    offset: usize,
    length: usize,
}

impl Entry {
    #[inline]
    fn read(bytes: &[u8; ENTRY]) -> Entry {
        let word = u64::from_be_bytes(*bytes);
        Entry {
            sender: (word >> 32) as u32,
            offset: usize::from((word >> 16) as u16),
            length: usize::from(word as u16),
        }
    }
}

impl<'a> Directory<'a> {
    /// Reads a tray; nothing if it is not well packed.
    pub fn read(tray: &'a [u8]) -> Option<Directory<'a>> {
        let (&[_, _, _, _, e0, e1, 0, 0], rest) = tray.split_first_chunk::<HEADER>()? else {
            return None;
        };
        let count = usize::from(u16::from_be_bytes([e0, e1]));
        if tray.len() > MAX_TRAY || count > MAX_ENTRIES {
            return None;
        }
        let entries = rest.get(..ENTRY * count)?;
        let directory = Directory { tray, entries };
        let mut end = HEADER + ENTRY * count;
        for entry in directory.entries() {
            if entry.offset != end {
                return None;
            }
            end += entry.length;
        }
        (end == tray.len()).then_some(directory)
    }

    /// The round in which the tray's frames were sent.
    pub fn round(&self) -> u32 {
        u32::from_be_bytes([self.tray[0], self.tray[1], self.tray[2], self.tray[3]])
    }

    /// Whether some entry stands under 0 or the own number.
    pub fn has_bad_sender(&self, own: u32) -> bool {
        self.entries()
            .any(|entry| entry.sender == 0 || entry.sender == own)
    }

    /// Makes every sender heard and puts each one's frame into `received`, which is
    /// empty; nothing if more than 64 would be heard. The tray is of the state's round,
    /// and no sender is the controller itself.
    pub fn hear(&self, state: &mut State, received: &mut Received<'a>) -> Option<()> {
        let mut guess = 0;
        for entry in self.entries() {
            let place = match place_of(&state.heard, entry.sender, guess) {
                Ok(place) => place,
                Err(_) if state.heard.is_full() => return None,
                Err(place) => {
                    received.make_room(place, state.heard.len());
                    state.hear(place, entry.sender);
                    place
                }
            };
            guess = place + 1;
            let bytes = &self.tray[entry.offset..entry.offset + entry.length];
            received.add(place, bytes);
        }
        Some(())
    }

    fn entries(&self) -> impl Iterator<Item = Entry> + 'a {
        self.entries
            .chunks_exact(ENTRY)
            .map(|bytes| Entry::read(bytes.try_into().expect("an entry's bytes")))
    }
}

/// A link layer mostly stamps senders in rising order, so the place after the
/// last one found is tried before a search.
fn place_of(heard: &List, sender: u32, guess: usize) -> Result<usize, usize> {
    if heard.as_slice().get(guess) == Some(&sender) {
        Ok(guess)
    } else {
        heard.find(sender)
    }
}

/// Stands for the place of a frame where there is none.
const NO_ENTRY: u8 = u8::MAX;

/// The bytes of each other sender's frame; nothing if its frames differ.
pub struct Received<'a> {
    len: usize,
    frames: [Option<&'a [u8]>; MAX_NUMBERS],
    /// For each place of heard, where its frame stands among the frames.
    places: [u8; MAX_NUMBERS],
}

impl<'a> Received<'a> {
    pub fn empty() -> Received<'a> {
        Received {
            len: 0,
            frames: [None; MAX_NUMBERS],
            places: [NO_ENTRY; MAX_NUMBERS],
        }
    }

    /// A place of heard for a number that is new there; so many were heard before it.
    fn make_room(&mut self, place: usize, heard: usize) {
        self.places.copy_within(place..heard, place + 1);
        self.places[place] = NO_ENTRY;
    }

    /// A frame of the one at a place of heard. An equal copy counts once, and one that
    /// differs leaves nothing.
    fn add(&mut self, place: usize, bytes: &'a [u8]) {
        let at = &mut self.places[place];
        if *at == NO_ENTRY {
            *at = self.len as u8;
            self.frames[self.len] = Some(bytes);
            self.len += 1;
        } else {
            let frame = &mut self.frames[usize::from(*at)];
            *frame = frame.filter(|first| *first == bytes);
        }
    }

    /// How many are silent: heard before, and without an entry. Whoever is new in heard
    /// has one, so all without an entry are silent, but for oneself.
    pub fn silent(&self, state: &State) -> usize {
        state.heard.len() - 1 - self.len
    }

    /// Whether the tray has an entry under the number at a place of heard.
    pub fn has_entry(&self, place: usize) -> bool {
        self.places[place] != NO_ENTRY
    }

    /// The frame of the one at a place of heard, if it sent one that is not void for the
    /// state's round.
    pub fn frame_at(&self, place: usize, state: &State) -> Option<Frame<'a>> {
        let bytes = self.frames.get(usize::from(self.places[place]))?;
        frame::read((*bytes)?, state.round).ok()
    }

    /// The frames that are not void for the state's round.
    pub fn frames(&self, state: &State) -> impl Iterator<Item = Frame<'a>> + '_ {
        let round = state.round;
        self.frames[..self.len]
            .iter()
            .filter_map(move |&bytes| frame::read(bytes?, round).ok())
    }

    /// A bound for how many numbers the frames list.
    pub fn most_listed(&self) -> usize {
        let frames = self.frames[..self.len].iter();
        frames.map(|bytes| bytes.map_or(0, <[u8]>::len) / 4).sum()
    }
}
