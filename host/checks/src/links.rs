//! How many bytes a controller sends: document 02's A13. The total is of the lengths that
//! its calls return.

use std::marker::PhantomData;
use std::ops::RangeInclusive;

use crate::calls::Calls;
use crate::fields::{Fields, IMAGE_LEN};
use crate::packing::{frame, kind_of, pack, Entry, HEADER, MAX_FRAME, NONE, NUMBER, TURN};

/// The most that one sends whose lists have at most n numbers, and which sends nothing
/// from round 3 + 3n on: 2 + 3n headers and 1 + n lists. That is so for n = 64 whatever
/// the trays are, and in a line of n for as many as there are.
pub fn limit(n: usize) -> usize {
    (2 + 3 * n) * HEADER + (1 + n) * n * NUMBER
}

/// A controller, and how much it has sent.
pub struct Sender<C> {
    image: Vec<u8>,
    pub sent: usize,
    engine: PhantomData<C>,
}

impl<C: Calls> Sender<C> {
    pub fn start(number: u32, bit: u8) -> Sender<C> {
        let mut image = vec![0; IMAGE_LEN];
        let mut sent = 1;
        let answer = C::start(number, bit, &mut image, &mut [0; MAX_FRAME], &mut sent);
        assert_eq!(answer, 0, "start of {number}");
        Sender {
            image,
            sent,
            engine: PhantomData,
        }
    }

    pub fn fields(&self) -> Fields {
        Fields::of(&self.image)
    }

    /// Hands over a tray with so much room for output; the answer, and how many bytes are
    /// sent with it.
    pub fn tray(&mut self, tray: &[u8], room: usize) -> (u8, usize) {
        let mut length = 1;
        let answer = C::tray(&mut self.image, tray, &mut vec![0; room], &mut length);
        self.sent += length;
        (answer, length)
    }
}

/// The number of the controller that [`busiest`] is for.
pub const BUSIEST: u32 = 64;

/// The tray of a round, of those that make controller 64 send all that it may, whatever
/// its bit: those of `FullLists` in `crates/run/proofs/Inhabitants`.
///
/// - Round 1: 1 to 63 send init, so the roster has 64 numbers.
/// - Round 2: all are silent, which counts as the own roster. So the 64 are candidates, and
///   there is no decision up to phase 64, in round 195.
/// - Round 5: a third lists 64 other numbers. These are echoed, and are no candidates.
/// - From round 8 on the same third has void frames, so that the own list, which counts for
///   the others, reaches a third again, and not two thirds.
pub fn busiest(round: u32) -> Vec<u8> {
    let others: Vec<u32> = (257..=320).collect();
    let entries = match round {
        1 => from(1..=63, frame(1, NONE, &[])),
        5 => from(1..=22, frame(5, NONE, &others)),
        8.. if kind_of(round) == TURN => from(1..=22, Vec::new()),
        _ => Vec::new(),
    };
    pack(round, &entries)
}

/// The same frame from each of the senders.
fn from(senders: RangeInclusive<u32>, bytes: Vec<u8>) -> Vec<Entry> {
    let entry = |sender| Entry {
        sender,
        bytes: bytes.clone(),
    };
    senders.map(entry).collect()
}
