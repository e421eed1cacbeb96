//! The words for what is told, as a scenario has them and as the drill shows them.

use std::fmt::{self, Display, Formatter};

use checks::packing::{kind_of, INIT, NONE, PROPOSE, ROSTER, TURN, VALUE};

use crate::scenario::{Junk, Saying, Whom};

/// Numbers with a blank between them, three and more neighbours as `4-9`.
pub fn numbers<'a>(list: impl IntoIterator<Item = &'a u32>) -> String {
    let mut runs: Vec<(u32, u32)> = Vec::new();
    for &number in list {
        match runs.last_mut() {
            Some((_, last)) if last.checked_add(1) == Some(number) => *last = number,
            _ => runs.push((number, number)),
        }
    }
    let words: Vec<String> = runs.into_iter().map(run).collect();
    words.join(" ")
}

fn run((first, last): (u32, u32)) -> String {
    match last - first {
        0 => format!("{first}"),
        1 => format!("{first} {last}"),
        _ => format!("{first}-{last}"),
    }
}

/// From how many characters on numbers are shown by their count.
const LONG: usize = 40;

/// The same, or only how many if they are long.
pub fn short_numbers(list: &[u32]) -> String {
    short_of(list, numbers(list))
}

/// Numbers in a sentence, or only how many.
pub fn short_named(list: &[u32]) -> String {
    short_of(list, named(list))
}

fn short_of(list: &[u32], text: String) -> String {
    match text.len() > LONG {
        true => format!("{} of them", list.len()),
        false => text,
    }
}

/// Refusals, as they came.
pub fn codes(refusals: &[u8]) -> String {
    let each: Vec<String> = refusals.iter().map(u8::to_string).collect();
    each.join(" ")
}

/// So many of something that is named by one.
pub fn times(count: usize, one: &str) -> String {
    match count {
        1 => format!("1 {one}"),
        _ => format!("{count} {one}s"),
    }
}

/// Numbers in a sentence: `5, 7 and 9`.
pub fn named(list: &[u32]) -> String {
    let text = numbers(list);
    match text.rsplit_once(' ') {
        Some((front, last)) => format!("{} and {last}", front.replace(' ', ", ")),
        None => text,
    }
}

/// The name of what is sent in a round.
pub fn kind(round: u32) -> &'static str {
    match kind_of(round) {
        INIT => "init",
        ROSTER => "roster",
        VALUE => "value",
        PROPOSE => "propose",
        _ => "turn",
    }
}

/// The phase of a round, if it is in one.
pub fn phase(round: u32) -> Option<u32> {
    Some(round.checked_sub(3)? / 3)
}

/// The words that can stand behind `tells ..:` in a round.
pub fn allowed(round: u32) -> String {
    let own = match kind_of(round) {
        INIT => "init",
        ROSTER => "lists 3 5, lists nothing",
        VALUE => "value 0, value 1",
        PROPOSE => "propose 0, propose 1, propose none",
        TURN => "lists 3 5, lists nothing, opinion 0, opinion 1 lists 3 5",
        _ => "",
    };
    format!("{own}, {ALWAYS_ALLOWED}")
}

/// The words for what can be told in any round.
pub const ALWAYS_ALLOWED: &str = "bit 0, bit 1, honest, garbled, stale, cut, empty, silent, \
                                  twice, repeats 5, anything, bytes 00 ff; or two with and";

/// The words for junk.
pub const JUNK_ALLOWED: &str = "noise, cut, old, forged, crowd, bytes 00 ff";

impl Display for Saying {
    fn fmt(&self, f: &mut Formatter) -> fmt::Result {
        match self {
            Saying::Honest => f.write_str("honest"),
            Saying::Bit(bit) => write!(f, "bit {bit}"),
            Saying::Init => f.write_str("init"),
            Saying::Lists(list) => write!(f, "lists {}", listed(list)),
            Saying::Value(bit) => write!(f, "value {bit}"),
            Saying::Propose(bit) => write!(f, "propose {}", choice(*bit)),
            Saying::Opinion(bit, list) if list.is_empty() => write!(f, "opinion {}", choice(*bit)),
            Saying::Opinion(bit, list) => {
                write!(f, "opinion {} lists {}", choice(*bit), listed(list))
            }
            Saying::Garbled => f.write_str("garbled"),
            Saying::Stale => f.write_str("stale"),
            Saying::Cut => f.write_str("cut"),
            Saying::Empty => f.write_str("empty"),
            Saying::Silent => f.write_str("silent"),
            Saying::Twice => f.write_str("twice"),
            Saying::Repeats(number) => write!(f, "repeats {number}"),
            Saying::Bytes(bytes) => write!(f, "bytes {}", hex(bytes)),
            Saying::Anything => f.write_str("anything"),
        }
    }
}

impl Saying {
    /// The words with a long list by its count.
    pub fn short(&self) -> String {
        match self {
            Saying::Lists(list) => format!("lists {}", short_listed(list)),
            Saying::Opinion(bit, list) if !list.is_empty() => {
                format!("opinion {} lists {}", choice(*bit), short_listed(list))
            }
            _ => self.to_string(),
        }
    }
}

impl Display for Junk {
    fn fmt(&self, f: &mut Formatter) -> fmt::Result {
        match self {
            Junk::Noise => f.write_str("noise"),
            Junk::Cut => f.write_str("cut"),
            Junk::Old => f.write_str("old"),
            Junk::Forged => f.write_str("forged"),
            Junk::Crowd => f.write_str("crowd"),
            Junk::Bytes(bytes) => write!(f, "bytes {}", hex(bytes)),
        }
    }
}

impl Display for Whom {
    fn fmt(&self, f: &mut Formatter) -> fmt::Result {
        match self {
            Whom::All => f.write_str("all"),
            Whom::Each => f.write_str("each"),
            Whom::These(list) => f.write_str(&numbers(list)),
        }
    }
}

fn listed(list: &[u32]) -> String {
    match list.is_empty() {
        true => "nothing".into(),
        false => numbers(list),
    }
}

fn short_listed(list: &[u32]) -> String {
    match listed(list) {
        text if text.len() > LONG => format!("{} numbers", list.len()),
        text => text,
    }
}

fn choice(bit: u8) -> String {
    match bit {
        NONE => "none".into(),
        _ => bit.to_string(),
    }
}

fn hex(bytes: &[u8]) -> String {
    let pairs: Vec<String> = bytes.iter().map(|byte| format!("{byte:02x}")).collect();
    pairs.join(" ")
}
