//! A scenario: who is on the line, and what the faulty ones tell whom in which rounds.

use std::collections::{BTreeMap, BTreeSet};
use std::ops::RangeInclusive;

use checks::packing::{kind_of, INIT, PROPOSE, ROSTER, TURN, VALUE};

/// The most controllers of a line.
pub const MOST_ON_LINE: usize = 64;
/// The last round in which a frame is sent; in the one after it all are quiet.
pub const LAST_SENT: u32 = 194;
/// The most numbers of a list.
pub const MOST_LISTED: usize = 64;
/// The most frames that one tells another in a round, and the most bytes of one written in
/// hex. With these the tray of a line of 64 stays under 65,535 bytes and 256 entries.
pub const MOST_FRAMES: usize = 3;
pub const MOST_BYTES: usize = 320;

#[derive(Clone, Debug, Default, PartialEq, Eq)]
pub struct Scenario {
    /// The remarks at the head of the text: a title, then what to notice.
    pub heading: Vec<String>,
    /// The correct ones, each with the bit that it brings in.
    pub correct: BTreeMap<u32, u8>,
    pub faulty: BTreeSet<u32>,
    /// The bit with which the controller behind a faulty card was started, where it is not 0.
    pub behind: BTreeMap<u32, u8>,
    /// In the order of the text: where two speak of the same, the later one counts.
    pub orders: Vec<Order>,
}

/// A deed, in the rounds in which it is done.
#[derive(Clone, Debug, PartialEq, Eq)]
pub struct Order {
    /// The line of the text, from 1.
    pub line: usize,
    pub rounds: RangeInclusive<u32>,
    /// What is left to chance is drawn with this.
    pub seed: u64,
    pub deed: Deed,
}

impl Order {
    /// The seed where none is given.
    pub const SEED: u64 = 1;
}

#[derive(Clone, Debug, PartialEq, Eq)]
pub enum Deed {
    Tells {
        /// One faulty one, or nobody in particular for every faulty one.
        who: Option<u32>,
        whom: Whom,
        what: Vec<Saying>,
    },
    /// Bytes from the cable that are no tray, handed over before the round's tray.
    Junk { whom: Whom, junk: Junk },
}

#[derive(Clone, Debug, PartialEq, Eq)]
pub enum Whom {
    /// Everyone else alike.
    All,
    /// Everyone else, with what is left to chance drawn for each anew.
    Each,
    These(BTreeSet<u32>),
}

impl Whom {
    pub fn has(&self, number: u32) -> bool {
        match self {
            Whom::All | Whom::Each => true,
            Whom::These(numbers) => numbers.contains(&number),
        }
    }
}

/// What a faulty one tells another: one frame mostly, or none, or two.
#[derive(Clone, Debug, PartialEq, Eq)]
pub enum Saying {
    /// What the controller behind the card would send.
    Honest,
    /// The same with this bit in it, in a round whose frames have one.
    Bit(u8),
    Init,
    /// A roster, or a turn without opinion, of these numbers.
    Lists(Vec<u32>),
    Value(u8),
    /// 2 for none.
    Propose(u8),
    /// A turn: 0, 1 or 2 for none, and the numbers listed.
    Opinion(u8, Vec<u32>),
    Garbled,
    /// The frame of an earlier round.
    Stale,
    Cut,
    /// An entry without bytes.
    Empty,
    /// No entry.
    Silent,
    /// Two frames that differ.
    Twice,
    /// What a correct one sent in this round.
    Repeats(u32),
    Bytes(Vec<u8>),
    /// Drawn from all of these.
    Anything,
}

impl Saying {
    /// Whether it can be said in a round: a frame has the kind of its round.
    pub fn fits(&self, round: u32) -> bool {
        let kind = kind_of(round);
        match self {
            Saying::Init => kind == INIT,
            Saying::Lists(_) => kind == ROSTER || kind == TURN,
            Saying::Value(_) => kind == VALUE,
            Saying::Propose(_) => kind == PROPOSE,
            Saying::Opinion(..) => kind == TURN,
            _ => true,
        }
    }

    /// How many frames it is at most.
    pub fn frames(&self) -> usize {
        match self {
            Saying::Silent => 0,
            Saying::Twice | Saying::Anything => 2,
            _ => 1,
        }
    }
}

#[derive(Clone, Debug, PartialEq, Eq)]
pub enum Junk {
    /// Random bytes.
    Noise,
    /// The round's tray without its last byte.
    Cut,
    /// A tray of the round before.
    Old,
    /// A tray with a frame under the receiver's own number.
    Forged,
    /// A tray with more senders than 64.
    Crowd,
    Bytes(Vec<u8>),
}

impl Scenario {
    /// How many are on the line.
    pub fn size(&self) -> usize {
        self.correct.len() + self.faulty.len()
    }

    /// By when all correct ones have decided, by document 01's claim.
    pub fn limit(&self) -> u32 {
        3 + 3 * self.size() as u32
    }

    /// Whether anything is claimed of the line: fewer than a third are faulty.
    pub fn is_promised(&self) -> bool {
        3 * self.faulty.len() < self.size()
    }

    /// Everybody's numbers.
    pub fn numbers(&self) -> BTreeSet<u32> {
        self.correct.keys().chain(&self.faulty).copied().collect()
    }

    /// The orders of a round, in the order of the text.
    pub fn in_round(&self, round: u32) -> Vec<&Order> {
        let now = |order: &&Order| order.rounds.contains(&round);
        self.orders.iter().filter(now).collect()
    }
}

impl Order {
    /// What a faulty one is to tell another, if this order speaks of it.
    pub fn told(&self, from: u32, to: u32) -> Option<&[Saying]> {
        match &self.deed {
            Deed::Tells { who, whom, what } if who.is_none_or(|w| w == from) && whom.has(to) => {
                Some(what)
            }
            _ => None,
        }
    }

    /// The junk that one gets by this order.
    pub fn junk(&self, to: u32) -> Option<&Junk> {
        match &self.deed {
            Deed::Junk { whom, junk } if whom.has(to) => Some(junk),
            _ => None,
        }
    }
}
