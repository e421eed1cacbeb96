//! What request A3 compares the walk with: looking through each list for each
//! number. It is given the numbers to count, each once, and does nothing else.

use checks::fields::Fields;

use crate::inputs::Input;

/// The lists of a turn tray, as they lie in it, the own one beside them, and the
/// numbers in them.
pub struct Lists {
    lists: Vec<Vec<u8>>,
    numbers: Vec<u32>,
}

impl Lists {
    pub fn of(input: &Input) -> Lists {
        let tray = &input.trays[0];
        let own = Fields::of(&input.image).echoes;
        let mut lists = vec![own.iter().flat_map(|n| n.to_be_bytes()).collect()];
        let entries = half(tray, 4);
        for entry in tray[8..8 + 8 * entries].chunks_exact(8) {
            let (offset, len) = (half(entry, 4), half(entry, 6));
            lists.push(tray[offset + 8..offset + len].to_vec());
        }
        let mut numbers: Vec<u32> = lists.iter().flat_map(|list| words(list)).collect();
        numbers.sort_unstable();
        numbers.dedup();
        Lists { lists, numbers }
    }

    /// The counts of all numbers, added up in a way that depends on their order.
    pub fn look_through(&self) -> u64 {
        let has = |list: &[u8], number| words(list).any(|other| other == number);
        let count = |&number| self.lists.iter().filter(|list| has(list, number)).count();
        let counts = self.numbers.iter().map(count);
        counts.fold(0, |sum: u64, count| sum.wrapping_mul(31) + count as u64)
    }
}

fn half(bytes: &[u8], at: usize) -> usize {
    usize::from(u16::from_be_bytes([bytes[at], bytes[at + 1]]))
}

fn words(list: &[u8]) -> impl Iterator<Item = u32> + '_ {
    let word = |w: &[u8]| u32::from_be_bytes([w[0], w[1], w[2], w[3]]);
    list.chunks_exact(4).map(word)
}
