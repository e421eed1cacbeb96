//! The two thresholds, and the tally of received lists.

use crate::frame::{write_numbers, Frame, MAX_NUMBERS};

/// Whether a count reaches a third of those heard.
pub fn reaches_third(count: usize, heard: usize) -> bool {
    if cfg!(feature = "fault") {
        count >= heard / 3
    } else {
        3 * count >= heard
    }
}

/// Whether a count reaches two thirds of those heard.
pub fn reaches_two_thirds(count: usize, heard: usize) -> bool {
    3 * count >= 2 * heard
}

/// At most 64 lists come in: the own one and one from each other one heard.
pub const MAX_LISTED: usize = MAX_NUMBERS * MAX_NUMBERS;

/// Counts in how many lists each number stands.
///
/// Correct ones mostly send the list that one sends oneself, so lists equal to it
/// are only counted. The numbers of all others are put in a row and sorted; a
/// number's count among them is then the length of its run. This costs about the
/// same however the lists are made, so no choice of numbers makes a controller slow.
pub struct Tally<'a, const ROOM: usize> {
    own: &'a [u32],
    own_bytes: [u8; 4 * MAX_NUMBERS],
    /// How many lists are the own one, count as it, or are equal to it.
    equal: usize,
    len: usize,
    numbers: [u32; ROOM],
}

impl<'a, const ROOM: usize> Tally<'a, ROOM> {
    /// A tally that has the own list in it so many times: for oneself, and for each who
    /// counts as having sent it.
    pub fn of(own: &'a [u32], times: usize) -> Self {
        let mut own_bytes = [0; 4 * MAX_NUMBERS];
        write_numbers(own, &mut own_bytes);
        Tally {
            own,
            own_bytes,
            equal: times,
            len: 0,
            numbers: [0; ROOM],
        }
    }

    /// Adds the list of a frame.
    pub fn add(&mut self, frame: &Frame) {
        if frame.list == &self.own_bytes[..4 * self.own.len()] {
            self.equal += 1;
            return;
        }
        let numbers = frame.numbers();
        let end = self.len + numbers.len();
        for (place, number) in self.numbers[self.len..end].iter_mut().zip(numbers) {
            *place = number;
        }
        self.len = end;
    }

    /// Hands on every number listed with its count, in rising order, until one is
    /// refused.
    pub fn each<E>(mut self, mut f: impl FnMut(u32, usize) -> Result<(), E>) -> Result<(), E> {
        let listed = &mut self.numbers[..self.len];
        listed.sort_unstable();
        let mut own = self.own.iter().copied().peekable();
        for run in listed.chunk_by(|a, b| a == b) {
            while let Some(number) = own.next_if(|&number| number < run[0]) {
                f(number, self.equal)?;
            }
            let in_equal = own.next_if_eq(&run[0]).map_or(0, |_| self.equal);
            f(run[0], run.len() + in_equal)?;
        }
        own.try_for_each(|number| f(number, self.equal))
    }
}
