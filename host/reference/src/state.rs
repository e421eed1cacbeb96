//! A controller's state, its image of 1,024 bytes, and when it is sound.

use crate::frame::{Kind, LAST_ROUND, MAX_NUMBERS, NONE};
use crate::list::{is_zero, List, LIST_LEN};

/// The length of a state's image.
pub const IMAGE_LEN: usize = 1024;

const HEARD: usize = 16;
const CANDIDATES: usize = HEARD + LIST_LEN;
const ECHOES: usize = CANDIDATES + LIST_LEN;
const FIRST_ROUNDS: usize = ECHOES + LIST_LEN;
const RESERVED: usize = FIRST_ROUNDS + MAX_NUMBERS;

#[derive(Clone, Debug)]
pub struct State {
    pub number: u32,
    /// The last round sent; of a decided one, the round in which it fell quiet.
    pub round: u32,
    /// The own bit.
    pub bit: u8,
    /// The bit said in the last frame; 2 of a decided one, which sends none.
    pub said: u8,
    pub strong: bool,
    /// 0 for none.
    pub king: u32,
    /// 2 for none.
    pub decision: u8,
    pub heard: List,
    pub candidates: List,
    pub echoes: List,
    /// For each place of heard, the round of the tray that first brought its number;
    /// 0 for the own number and in unused places.
    pub first_rounds: [u8; MAX_NUMBERS],
}

impl State {
    /// A state to load into; it is not sound itself.
    pub fn blank() -> State {
        State {
            number: 0,
            round: 0,
            bit: 0,
            said: 0,
            strong: false,
            king: 0,
            decision: 0,
            heard: List::empty(),
            candidates: List::empty(),
            echoes: List::empty(),
            first_rounds: [0; MAX_NUMBERS],
        }
    }

    /// The state after init was sent.
    pub fn started(number: u32, bit: u8) -> State {
        State {
            number,
            round: 1,
            bit,
            said: NONE,
            decision: NONE,
            heard: List::of_one(number),
            ..State::blank()
        }
    }

    pub fn undecided(&self) -> bool {
        self.decision == NONE
    }

    /// The list in the last frame: the echoes, if its kind carries a list.
    pub fn list_sent(&self) -> &[u32] {
        if Kind::of_round(self.round).has_list() {
            self.echoes.as_slice()
        } else {
            &[]
        }
    }

    /// Makes a number heard that the tray of the state's round is the first to bring, at
    /// the place that `find` gave. Heard is not full, and the round is not the last.
    pub fn hear(&mut self, place: usize, number: u32) {
        let used = place..self.heard.len();
        self.first_rounds.copy_within(used, place + 1);
        self.first_rounds[place] = self.round as u8;
        self.heard.insert(place, number);
    }

    /// Reads an image into this blank state; nothing if it is not sound. The lists
    /// are read where they stay, since copies of them would cost most of a call.
    pub fn load(&mut self, image: &[u8]) -> Option<()> {
        let image: &[u8; IMAGE_LEN] = image.try_into().ok()?;
        if image[10] > 1 || !is_zero(&image[RESERVED..]) {
            return None;
        }
        self.number = number_at(image, 0);
        self.round = number_at(image, 4);
        self.bit = image[8];
        self.said = image[9];
        self.strong = image[10] == 1;
        self.king = number_at(image, 11);
        self.decision = image[15];
        self.heard.load(&image[HEARD..CANDIDATES])?;
        self.candidates.load(&image[CANDIDATES..ECHOES])?;
        self.echoes.load(&image[ECHOES..FIRST_ROUNDS])?;
        self.first_rounds
            .copy_from_slice(&image[FIRST_ROUNDS..RESERVED]);
        self.is_sound().then_some(())
    }

    /// The rules beyond those that reading the lists has tested.
    fn is_sound(&self) -> bool {
        if !(1..=LAST_ROUND).contains(&self.round) {
            return false;
        }
        let kind = Kind::of_round(self.round);
        self.bit <= 1
            && self.decision <= NONE
            && self.has_sound_said(kind)
            && (self.round > 2 || self.candidates.is_empty())
            && (self.round > 1 || self.echoes.is_empty())
            // A list has no 0, so this also says that the own number is not 0.
            && self.heard.find(self.number).is_ok_and(|own| self.has_sound_record(own))
    }

    /// Whether the bit said is one for a frame of this kind; a decided one sends none.
    fn has_sound_said(&self, kind: Kind) -> bool {
        if self.undecided() {
            kind.allows_bit(self.said) && (kind != Kind::Value || self.said == self.bit)
        } else {
            self.said == NONE
        }
    }

    /// Whether the first rounds are 0 for the own number, which stands at a place of
    /// heard, 1 to 194 for all others, and 0 in unused places.
    fn has_sound_record(&self, own: usize) -> bool {
        let (used, unused) = self.first_rounds.split_at(self.heard.len());
        let (before, after) = (&used[..own], &used[own + 1..]);
        used[own] == 0 && are_tray_rounds(before) && are_tray_rounds(after) && is_zero(unused)
    }

    pub fn write(&self, image: &mut [u8; IMAGE_LEN]) {
        image[0..4].copy_from_slice(&self.number.to_le_bytes());
        image[4..8].copy_from_slice(&self.round.to_le_bytes());
        image[8] = self.bit;
        image[9] = self.said;
        image[10] = u8::from(self.strong);
        image[11..15].copy_from_slice(&self.king.to_le_bytes());
        image[15] = self.decision;
        self.heard.write(&mut image[HEARD..CANDIDATES]);
        self.candidates.write(&mut image[CANDIDATES..ECHOES]);
        self.echoes.write(&mut image[ECHOES..FIRST_ROUNDS]);
        image[FIRST_ROUNDS..RESERVED].copy_from_slice(&self.first_rounds);
        image[RESERVED..].fill(0);
    }
}

/// Whether trays of all these rounds can be worked, without an early way out.
fn are_tray_rounds(rounds: &[u8]) -> bool {
    let worked = 1..LAST_ROUND as u8;
    rounds
        .iter()
        .fold(true, |all, round| all & worked.contains(round))
}

/// Numbers in an image are little-endian.
fn number_at(image: &[u8; IMAGE_LEN], at: usize) -> u32 {
    u32::from_le_bytes([image[at], image[at + 1], image[at + 2], image[at + 3]])
}
