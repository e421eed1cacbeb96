//! What a faulty one tells, as frames.

use checks::packing::{frame, kind_of, INIT, NONE, ROSTER, VALUE};

use crate::run::controller::Controller;
use crate::scenario::Saying;

/// The bit of a garbled frame, which no kind allows.
const NO_BIT: u8 = 7;
/// An init of the round before the first, for a card that is late from the start.
const BEFORE_INIT: [u8; 8] = [0, 0, 0, 0, INIT, NONE, 0, 0];

/// What there is to tell from in a round.
pub struct Telling<'a> {
    pub round: u32,
    /// The controller behind the card, which follows the rules.
    pub behind: &'a Controller,
    pub correct: &'a [Controller],
}

impl Telling<'_> {
    /// The frames of a saying; what is drawn has been drawn.
    pub fn frames(&self, saying: &Saying) -> Vec<Vec<u8>> {
        let round = self.round;
        let one = match saying {
            Saying::Honest => return self.sent(self.behind),
            Saying::Repeats(number) => {
                let mut correct = self.correct.iter();
                let repeated = correct.find(|one| one.number == *number);
                return repeated.map_or(Vec::new(), |one| self.sent(one));
            }
            Saying::Silent | Saying::Anything => return Vec::new(),
            Saying::Twice => return self.twice(),
            Saying::Bit(bit) => self.with_bit(*bit),
            Saying::Init => frame(round, NONE, &[]),
            Saying::Lists(list) => frame(round, NONE, list),
            Saying::Value(bit) | Saying::Propose(bit) => frame(round, *bit, &[]),
            Saying::Opinion(bit, list) => frame(round, *bit, list),
            Saying::Garbled => self.garbled(),
            Saying::Stale if self.behind.earlier.is_empty() => BEFORE_INIT.to_vec(),
            Saying::Stale => self.behind.earlier.clone(),
            Saying::Cut => {
                let mut bytes = self.base();
                bytes.pop();
                bytes
            }
            Saying::Empty => Vec::new(),
            Saying::Bytes(bytes) => bytes.clone(),
        };
        vec![one]
    }

    /// What a controller sent in this round; nothing if it is quiet.
    fn sent(&self, one: &Controller) -> Vec<Vec<u8>> {
        match one.sent.is_empty() {
            true => Vec::new(),
            false => vec![one.sent.clone()],
        }
    }

    /// The frame of the controller behind the card; where it is quiet, one that says as
    /// little as can be.
    fn base(&self) -> Vec<u8> {
        let least = if kind_of(self.round) == VALUE {
            0
        } else {
            NONE
        };
        match self.behind.sent.is_empty() {
            true => frame(self.round, least, &[]),
            false => self.behind.sent.clone(),
        }
    }

    fn has_bit(&self) -> bool {
        !matches!(kind_of(self.round), INIT | ROSTER)
    }

    fn with_bit(&self, bit: u8) -> Vec<u8> {
        let mut bytes = self.base();
        if self.has_bit() {
            bytes[5] = bit;
        }
        bytes
    }

    fn garbled(&self) -> Vec<u8> {
        let mut bytes = self.base();
        bytes[5] = NO_BIT;
        bytes
    }

    /// Both bits, or in a round without one a good frame and a garbled one.
    fn twice(&self) -> Vec<Vec<u8>> {
        match self.has_bit() {
            true => vec![self.with_bit(0), self.with_bit(1)],
            false => vec![self.base(), self.garbled()],
        }
    }
}
