//! Frames: eight bytes of header, then a list of rising numbers.

/// The most numbers that a list holds.
pub const MAX_NUMBERS: usize = 64;
/// The length of the longest frame.
pub const MAX_FRAME: usize = HEADER + 4 * MAX_NUMBERS;
/// The last round that can be sent.
pub const LAST_ROUND: u32 = 195;
/// The bit that says neither 0 nor 1.
pub const NONE: u8 = 2;

const HEADER: usize = 8;

/// What a round's frames are.
#[derive(Clone, Copy, Debug, PartialEq, Eq)]
#[repr(u8)]
pub enum Kind {
    Init = 1,
    Roster = 2,
    Value = 3,
    Propose = 4,
    Turn = 5,
}

impl Kind {
    /// The kind of every frame of a round (from 1).
    pub fn of_round(round: u32) -> Kind {
        match (round, round % 3) {
            (1, _) => Kind::Init,
            (2, _) => Kind::Roster,
            (_, 0) => Kind::Value,
            (_, 1) => Kind::Propose,
            _ => Kind::Turn,
        }
    }

    pub fn allows_bit(self, bit: u8) -> bool {
        match self {
            Kind::Init | Kind::Roster => bit == NONE,
            Kind::Value => bit <= 1,
            Kind::Propose | Kind::Turn => bit <= NONE,
        }
    }

    pub fn has_list(self) -> bool {
        matches!(self, Kind::Roster | Kind::Turn)
    }
}

/// A frame that is not void. Its list stays where it lies in the tray.
#[derive(Clone, Copy, Debug, PartialEq, Eq)]
pub struct Frame<'a> {
    pub bit: u8,
    pub(crate) list: &'a [u8],
}

impl<'a> Frame<'a> {
    /// The numbers listed, rising.
    pub fn numbers(&self) -> impl ExactSizeIterator<Item = u32> + 'a {
        numbers(self.list)
    }
}

/// Why bytes are void, with document 02's numbers.
#[derive(Clone, Copy, Debug, PartialEq, Eq)]
#[repr(u8)]
pub enum Void {
    Length = 11,
    Round = 12,
    Content = 13,
}

/// Reads a frame sent in `round`, or says why it is void for that round.
#[inline]
pub fn read(bytes: &[u8], round: u32) -> Result<Frame<'_>, Void> {
    let (header, list) = bytes.split_first_chunk::<HEADER>().ok_or(Void::Length)?;
    let [r0, r1, r2, r3, kind, bit, c0, c1] = *header;
    let count = usize::from(u16::from_be_bytes([c0, c1]));
    if list.len() != 4 * count {
        return Err(Void::Length);
    }
    let expected = Kind::of_round(round);
    let sent = u32::from_be_bytes([r0, r1, r2, r3]);
    if !(1..=LAST_ROUND).contains(&round) || sent != round || kind != expected as u8 {
        return Err(Void::Round);
    }
    let most = if expected.has_list() { MAX_NUMBERS } else { 0 };
    if !expected.allows_bit(bit) || count > most || !is_rising(list) {
        return Err(Void::Content);
    }
    Ok(Frame { bit, list })
}

/// Writes a frame in front of `out`, which has room for it, and says its length.
pub fn write(round: u32, bit: u8, list: &[u32], out: &mut [u8]) -> usize {
    let length = HEADER + 4 * list.len();
    let out = &mut out[..length];
    out[..4].copy_from_slice(&round.to_be_bytes());
    out[4] = Kind::of_round(round) as u8;
    out[5] = bit;
    out[6..8].copy_from_slice(&(list.len() as u16).to_be_bytes());
    write_numbers(list, &mut out[HEADER..]);
    length
}

/// Big-endian numbers out of bytes.
fn numbers(bytes: &[u8]) -> impl ExactSizeIterator<Item = u32> + '_ {
    bytes
        .chunks_exact(4)
        .map(|number| u32::from_be_bytes(number.try_into().expect("four bytes")))
}

/// Numbers into big-endian bytes, as many as both have.
pub(crate) fn write_numbers(list: &[u32], bytes: &mut [u8]) {
    for (place, number) in bytes.chunks_exact_mut(4).zip(list) {
        place.copy_from_slice(&number.to_be_bytes());
    }
}

/// Strictly rising and nonzero: the first is over 0, each next over the one before.
/// No early way out, so that the loop takes several numbers at a time.
fn is_rising(list: &[u8]) -> bool {
    let nexts = list.get(4..).unwrap_or(&[]);
    let rises = numbers(list)
        .zip(numbers(nexts))
        .fold(true, |rises, (a, b)| rises & (a < b));
    rises && numbers(list).next() != Some(0)
}
