//! Frames and trays, packed byte by byte as document 01 lays them out.

pub const INIT: u8 = 1;
pub const ROSTER: u8 = 2;
pub const VALUE: u8 = 3;
pub const PROPOSE: u8 = 4;
pub const TURN: u8 = 5;
pub const NONE: u8 = 2;

/// The bytes of a frame without its list, of a number in it, and of the longest frame.
pub const HEADER: usize = 8;
pub const NUMBER: usize = 4;
pub const MAX_FRAME: usize = 264;

/// The most bytes and entries of a tray.
pub const MAX_TRAY: usize = 65_535;
pub const MAX_ENTRIES: usize = 256;

#[derive(Clone)]
pub struct Entry {
    pub sender: u32,
    pub bytes: Vec<u8>,
}

pub fn kind_of(round: u32) -> u8 {
    match round {
        1 => INIT,
        2 => ROSTER,
        _ => VALUE + (round % 3) as u8,
    }
}

pub fn has_list(kind: u8) -> bool {
    kind == ROSTER || kind == TURN
}

/// A frame of the round's kind, without any test.
pub fn frame(round: u32, bit: u8, numbers: &[u32]) -> Vec<u8> {
    let mut bytes = Vec::with_capacity(HEADER + NUMBER * numbers.len());
    bytes.extend(round.to_be_bytes());
    bytes.extend([kind_of(round), bit]);
    bytes.extend((numbers.len() as u16).to_be_bytes());
    bytes.extend(numbers.iter().flat_map(|n| n.to_be_bytes()));
    bytes
}

/// The numbers in what a controller sent: a frame, or nothing at all.
pub fn numbers_in(sent: &[u8]) -> Vec<u32> {
    sent.chunks_exact(4)
        .skip(2)
        .map(|b| u32::from_be_bytes([b[0], b[1], b[2], b[3]]))
        .collect()
}

/// How many bytes the entries take in a tray.
pub fn packed_len(entries: &[Entry]) -> usize {
    8 + entries.iter().map(|e| 8 + e.bytes.len()).sum::<usize>()
}

/// Packs a tray. What does not fit its field is cut, which breaks a layout rule.
pub fn pack(round: u32, entries: &[Entry]) -> Vec<u8> {
    let mut tray = Vec::with_capacity(packed_len(entries));
    tray.extend(round.to_be_bytes());
    tray.extend((entries.len() as u16).to_be_bytes());
    tray.extend([0, 0]);
    let mut offset = 8 + 8 * entries.len();
    for entry in entries {
        tray.extend(entry.sender.to_be_bytes());
        tray.extend((offset as u16).to_be_bytes());
        tray.extend((entry.bytes.len() as u16).to_be_bytes());
        offset += entry.bytes.len();
    }
    for entry in entries {
        tray.extend(&entry.bytes);
    }
    tray
}

/// The entries of a well packed tray.
pub fn unpack(tray: &[u8]) -> Vec<Entry> {
    let half = |at: usize| usize::from(u16::from_be_bytes([tray[at], tray[at + 1]]));
    let entry = |i: usize| {
        let (offset, length) = (half(12 + 8 * i), half(14 + 8 * i));
        let sender = [0, 1, 2, 3].map(|k| tray[8 + 8 * i + k]);
        Entry {
            sender: u32::from_be_bytes(sender),
            bytes: tray[offset..offset + length].to_vec(),
        }
    };
    (0..half(4)).map(entry).collect()
}

/// The fewest that reach a third of `heard`.
pub fn third(heard: usize) -> usize {
    heard.div_ceil(3)
}

/// The fewest that reach two thirds of `heard`.
pub fn two_thirds(heard: usize) -> usize {
    (2 * heard).div_ceil(3)
}
