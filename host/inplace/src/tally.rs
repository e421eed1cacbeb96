//! The two thresholds, and how many lists have each number.

use crate::frame::numbers;
use crate::image::{List, MAX_NUMBERS};

/// Whether a count reaches a third of those heard.
pub fn reaches_third(count: usize, heard: usize) -> bool {
    3 * count >= heard
}

/// Whether a count reaches two thirds of those heard.
pub fn reaches_two_thirds(count: usize, heard: usize) -> bool {
    3 * count >= 2 * heard
}

/// Lists as they lie in frames; those that are not used are empty.
pub type Lists<'a> = [&'a [u8]; MAX_NUMBERS];

/// Hands on every number of the lists and of the own list with its count, in rising order,
/// until one finds no room. The own list counts so many times.
///
/// The numbers of the lists are put in a row with room for them and sorted: a number's
/// count is the length of its run. Whoever lies may choose its numbers, so they are not
/// counted in a table, where some numbers cost much more than others. This is not inlined,
/// so that a large room on the stack costs nothing elsewhere.
#[inline(never)]
pub fn each_number<const ROOM: usize>(
    lists: &Lists,
    own: List,
    times: usize,
    mut f: impl FnMut(u32, usize) -> Option<()>,
) -> Option<()> {
    let mut row = [0; ROOM];
    let mut len = 0;
    for list in lists {
        for (entry, number) in row[len..].iter_mut().zip(numbers(list)) {
            *entry = number;
        }
        len += list.len() / 4;
    }
    row[..len].sort_unstable();
    let mut own = own.numbers().peekable();
    for run in row[..len].chunk_by(|a, b| a == b) {
        let number = run[0];
        while let Some(below) = own.next_if(|&own| own < number) {
            f(below, times)?;
        }
        let in_own = own.next_if_eq(&number).map_or(0, |_| times);
        f(number, run.len() + in_own)?;
    }
    own.try_for_each(|number| f(number, times))
}
