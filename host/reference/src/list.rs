//! A list of at most 64 rising numbers, with unused places 0.

use crate::frame::MAX_NUMBERS;

/// Bytes of a list in the image: the count, then every place.
pub const LIST_LEN: usize = 4 + 4 * MAX_NUMBERS;

#[derive(Clone, Debug)]
pub struct List {
    len: usize,
    places: [u32; MAX_NUMBERS],
}

impl List {
    pub fn empty() -> List {
        List {
            len: 0,
            places: [0; MAX_NUMBERS],
        }
    }

    pub fn of_one(number: u32) -> List {
        let mut list = List::empty();
        list.insert(0, number);
        list
    }

    /// Reads a list out of an image into this one, which is empty; nothing if it
    /// breaks the list's rules.
    pub fn load(&mut self, bytes: &[u8]) -> Option<()> {
        let (count, places) = bytes.split_first_chunk::<4>()?;
        let count = u32::from_le_bytes(*count) as usize;
        if count > MAX_NUMBERS {
            return None;
        }
        let (used, unused) = places.split_at_checked(4 * count)?;
        for (place, bytes) in self.places.iter_mut().zip(used.chunks_exact(4)) {
            *place = u32::from_le_bytes(bytes.try_into().expect("four bytes"));
        }
        self.len = count;
        (is_rising(self.as_slice()) && is_zero(unused)).then_some(())
    }

    pub fn write(&self, bytes: &mut [u8]) {
        bytes[..4].copy_from_slice(&(self.len as u32).to_le_bytes());
        for (place, number) in bytes[4..].chunks_exact_mut(4).zip(self.places) {
            place.copy_from_slice(&number.to_le_bytes());
        }
    }

    pub fn len(&self) -> usize {
        self.len
    }

    pub fn is_empty(&self) -> bool {
        self.len == 0
    }

    pub fn is_full(&self) -> bool {
        self.len == MAX_NUMBERS
    }

    pub fn as_slice(&self) -> &[u32] {
        &self.places[..self.len]
    }

    /// Where a number stands, or else the place where it would stand.
    pub fn find(&self, number: u32) -> Result<usize, usize> {
        self.as_slice().binary_search(&number)
    }

    /// Puts a number in at the place that `find` gave. The list is not full.
    pub fn insert(&mut self, place: usize, number: u32) {
        self.places.copy_within(place..self.len, place + 1);
        self.places[place] = number;
        self.len += 1;
    }

    /// Adds a number over all others; `false` if the list is full.
    pub fn push(&mut self, number: u32) -> bool {
        let free = !self.is_full();
        if free {
            self.places[self.len] = number;
            self.len += 1;
        }
        free
    }
}

/// Strictly rising and nonzero, without an early way out.
fn is_rising(list: &[u32]) -> bool {
    let rises = |rises, pair: &[u32]| rises & (pair[0] < pair[1]);
    list.windows(2).fold(true, rises) && list.first() != Some(&0)
}

/// Whether all bytes are 0, without an early way out.
pub fn is_zero(bytes: &[u8]) -> bool {
    bytes.iter().fold(0, |all, byte| all | byte) == 0
}
