//! The frames of a tray, by the places that their senders have in heard.

use crate::frame::HEADER;
use crate::image::{List, MAX_NUMBERS};
use crate::tray::{Span, Tray};

/// The frame of each one heard.
pub struct Received<'a> {
    tray: Tray<'a>,
    /// How many are heard, oneself among them.
    pub heard: usize,
    /// For each place of heard the frame of the one there: of equal copies one, and a void
    /// one where copies differ.
    frames: [Span; MAX_NUMBERS],
}

impl<'a> Received<'a> {
    /// Before any entry of a tray is read.
    pub fn none(tray: Tray<'a>, heard: usize) -> Received<'a> {
        Received {
            tray,
            heard,
            frames: [Span::NONE; MAX_NUMBERS],
        }
    }

    /// Finds each sender's place; nothing if one is not heard. Senders mostly rise, so the
    /// place after the last one is tried before a search.
    pub fn read(&mut self, heard: List) -> Option<()> {
        let mut next = 0;
        for (sender, frame) in self.tray.entries() {
            let place = match heard.get(next) == Some(sender) {
                true => next,
                false => heard.find(sender).ok()?,
            };
            self.add(place, frame);
            next = (place + 1) % MAX_NUMBERS;
        }
        Some(())
    }

    /// A frame of the one at a place.
    #[inline(always)]
    fn add(&mut self, place: usize, frame: Span) {
        let first = &mut self.frames[place % MAX_NUMBERS];
        if first.is_none() {
            *first = frame;
        } else {
            self.add_copy(place, frame);
        }
    }

    /// An equal copy counts once. Most trays have no copies, so this stands by itself.
    #[inline(never)]
    fn add_copy(&mut self, place: usize, frame: Span) {
        let first = &mut self.frames[place];
        if self.tray.frame(*first) != self.tray.frame(frame) {
            *first = first.emptied();
        }
    }

    pub fn has_entry(&self, place: usize) -> bool {
        !self.frames[place].is_none()
    }

    /// How many are silent: heard, without an entry, and not oneself. The sum is as wide as
    /// a span, so that several are taken at a time.
    pub fn silent(&self) -> usize {
        let none = self.frames[..self.heard].iter().map(|f| f.is_none());
        none.map(u32::from).sum::<u32>() as usize - 1
    }

    /// The bytes of the frame of the one at a place; none if there is no entry.
    pub fn frame_at(&self, place: usize) -> &'a [u8] {
        self.tray.frame(self.frames[place])
    }

    /// The bytes of the frames of all heard, by their places.
    pub fn frames(&self) -> impl Iterator<Item = &'a [u8]> + use<'a, '_> {
        let frames = self.frames[..self.heard].iter();
        frames.map(|&frame| self.tray.frame(frame))
    }

    /// How many sent the one and the other of two frames without a list.
    pub fn votes(&self, frames: [[u8; HEADER]; 2]) -> [usize; 2] {
        let mut votes = [0; 2];
        for frame in self.frames() {
            if let Ok(frame) = <[u8; HEADER]>::try_from(frame) {
                votes[0] += usize::from(frame == frames[0]);
                votes[1] += usize::from(frame == frames[1]);
            }
        }
        votes
    }
}
