//! Frames: eight bytes of header, then a list of rising numbers. All is big-endian.

use std::ops::Range;

use crate::image::{List, MAX_NUMBERS};

/// The length of the longest frame.
pub const MAX_FRAME: usize = HEADER + 4 * MAX_NUMBERS;
/// The last round that can be sent.
pub const LAST_ROUND: u32 = 195;
/// The bit that says neither 0 nor 1.
pub const NONE: u8 = 2;
/// The length of a frame without a list.
pub const HEADER: usize = 8;

/// What a round's frames are.
#[derive(Clone, Copy, PartialEq, Eq)]
#[repr(u8)]
pub enum Kind {
    Init = 1,
    Roster = 2,
    Value = 3,
    Propose = 4,
    Turn = 5,
}

impl Kind {
    /// The kind of every frame of a round (from 1).
    #[inline]
    pub fn of_round(round: u32) -> Kind {
        match (round, round % 3) {
            (1, _) => Kind::Init,
            (2, _) => Kind::Roster,
            (_, 0) => Kind::Value,
            (_, 1) => Kind::Propose,
            _ => Kind::Turn,
        }
    }

    pub fn has_list(self) -> bool {
        matches!(self, Kind::Roster | Kind::Turn)
    }

    /// The bits that its frames may have.
    fn bits(self) -> Range<u8> {
        match self {
            Kind::Init | Kind::Roster => NONE..NONE + 1,
            Kind::Value => 0..NONE,
            Kind::Propose | Kind::Turn => 0..NONE + 1,
        }
    }
}

/// Why bytes are void, with document 02's numbers.
#[derive(Clone, Copy)]
#[repr(u8)]
pub enum Void {
    Length = 11,
    Round = 12,
    Content = 13,
}

/// What stands before the count in a header: round, kind and bit, as one number.
fn front(round: u32, kind: Kind, bit: u8) -> u64 {
    u64::from(round) << 16 | (kind as u64) << 8 | u64::from(bit)
}

/// The fronts of all frames of a round, which are of a kind.
pub fn fronts(round: u32, kind: Kind) -> Range<u64> {
    let Range { start, end } = kind.bits();
    front(round, kind, start)..front(round, kind, end)
}

/// Front and list of bytes that are as long as their header says.
#[inline]
fn split(bytes: &[u8]) -> Option<(u64, &[u8])> {
    let (header, list) = bytes.split_first_chunk::<HEADER>()?;
    let header = u64::from_be_bytes(*header);
    (list.len() == 4 * usize::from(header as u16)).then_some((header >> 16, list))
}

/// Why bytes are void for a round; nothing for a frame of it.
pub fn why_void(bytes: &[u8], round: u32) -> Option<Void> {
    let Some((given, list)) = split(bytes) else {
        return Some(Void::Length);
    };
    let kind = Kind::of_round(round);
    if !(1..=LAST_ROUND).contains(&round) || given >> 8 != front(round, kind, 0) >> 8 {
        return Some(Void::Round);
    }
    let most = if kind.has_list() { 4 * MAX_NUMBERS } else { 0 };
    let is_sound = fronts(round, kind).contains(&given) && list.len() <= most && rise(list, number);
    (!is_sound).then_some(Void::Content)
}

/// The list of a frame with one of these fronts, if it has numbers. They may not rise; all
/// else is tested.
#[inline]
pub fn list<'a>(bytes: &'a [u8], fronts: &Range<u64>) -> Option<&'a [u8]> {
    if bytes.len() <= HEADER {
        return None;
    }
    let (front, list) = split(bytes)?;
    (fronts.contains(&front) && list.len() <= 4 * MAX_NUMBERS).then_some(list)
}

/// The bit of a frame that is not void.
pub fn bit(bytes: &[u8]) -> u8 {
    bytes[5]
}

/// A frame without a list.
pub fn short(round: u32, kind: Kind, bit: u8) -> [u8; HEADER] {
    (front(round, kind, bit) << 16).to_be_bytes()
}

/// Writes a frame in front of the output and says its length. The list is sent where the
/// kind has one.
pub fn write(round: u32, kind: Kind, bit: u8, list: List, out: &mut [u8; MAX_FRAME]) -> usize {
    let count = if kind.has_list() { list.len() } else { 0 };
    let header = front(round, kind, bit) << 16 | count as u64;
    out[..HEADER].copy_from_slice(&header.to_be_bytes());
    if count > 0 {
        put_numbers(list, &mut out[HEADER..]);
    }
    HEADER + 4 * count
}

/// Puts the numbers of a list into bytes as a frame has them.
pub fn put_numbers(list: List, bytes: &mut [u8]) {
    for (place, number) in bytes.chunks_exact_mut(4).zip(list.numbers()) {
        place.copy_from_slice(&number.to_be_bytes());
    }
}

/// The numbers of a frame's list.
pub fn numbers(list: &[u8]) -> impl Iterator<Item = u32> + '_ {
    list.chunks_exact(4).map(number)
}

pub fn number(bytes: &[u8]) -> u32 {
    u32::from_be_bytes(bytes.try_into().expect("a number"))
}

/// Whether numbers rise strictly from above 0. There is no early way out, so that several
/// are taken at a time.
#[inline]
pub fn rise(list: &[u8], number: impl Fn(&[u8]) -> u32) -> bool {
    let nexts = list.get(4..).unwrap_or(&[]).chunks_exact(4);
    let pairs = list.chunks_exact(4).zip(nexts);
    let rises = pairs.fold(true, |rises, (a, b)| rises & (number(a) < number(b)));
    rises && list.chunks_exact(4).next().map(number) != Some(0)
}
