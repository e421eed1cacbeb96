//! Reads what a faulty one tells: the words behind the colon.

use std::collections::BTreeSet;
use std::ops::RangeInclusive;

use checks::packing::NONE;

use crate::mistake::Mistake;
use crate::parse::tokens::{number, span, Words};
use crate::parse::Parsed;
use crate::scenario::{Saying, Scenario, MOST_BYTES, MOST_FRAMES, MOST_LISTED};
use crate::words::{self, ALWAYS_ALLOWED};

/// Whether the next words begin another deed.
pub fn starts_deed(words: &Words) -> bool {
    match words.peek() {
        Some("faulty" | "junk") => true,
        Some(word) => {
            let verb = matches!(words.after(1), Some("tells" | "tell" | "plays" | "play"));
            verb && number(word).is_some()
        }
        None => false,
    }
}

/// `value 0`, or several frames: `value 0 and garbled`.
pub fn sayings(
    words: &mut Words,
    scenario: &Scenario,
    rounds: &RangeInclusive<u32>,
) -> Parsed<Vec<Saying>> {
    let mut all = Vec::new();
    loop {
        let taken = words.taken();
        let saying = saying(words, scenario, rounds)?;
        if let Some(round) = rounds.clone().find(|&round| !saying.fits(round)) {
            let what = format!(
                "round {round} is for {}, not for `{saying}`",
                words::kind(round)
            );
            return Err(words.since(taken, what, allowed(rounds)));
        }
        all.push(saying);
        if !words.take_if(&["and"]) {
            break;
        }
    }
    if all.len() > 1 && all.contains(&Saying::Silent) {
        return Err(words.at_last("silent is no frame", "silent alone, or frames with and"));
    }
    if all.iter().map(Saying::frames).sum::<usize>() > MOST_FRAMES {
        let allowed = format!("at most {MOST_FRAMES} for one receiver; anything may be two");
        return Err(words.at_last("these are too many frames", allowed));
    }
    match words.peek().is_none() || starts_deed(words) {
        true => Ok(all),
        false => {
            let what = format!("after what is told stands {}", words.next_shown());
            Err(words.at_next(
                what,
                "and with another frame, another one that tells something, or the end of the line",
            ))
        }
    }
}

fn allowed(rounds: &RangeInclusive<u32>) -> String {
    match rounds.start() == rounds.end() {
        true => words::allowed(*rounds.start()),
        false => format!("in several rounds: {ALWAYS_ALLOWED}"),
    }
}

fn saying(words: &mut Words, scenario: &Scenario, rounds: &RangeInclusive<u32>) -> Parsed<Saying> {
    let Some(word) = words.take() else {
        return Err(words.at_next("it is not said what is told", allowed(rounds)));
    };
    Ok(match word {
        "honest" => Saying::Honest,
        "bit" => Saying::Bit(bit(words)?),
        "init" => Saying::Init,
        "lists" => Saying::Lists(list(words)?),
        "value" => Saying::Value(bit(words)?),
        "propose" | "proposes" => Saying::Propose(choice(words)?),
        "opinion" => {
            let opinion = choice(words)?;
            let list = match words.take_if(&["lists"]) {
                true => list(words)?,
                false => Vec::new(),
            };
            Saying::Opinion(opinion, list)
        }
        "garbled" => Saying::Garbled,
        "stale" => Saying::Stale,
        "cut" => Saying::Cut,
        "empty" => Saying::Empty,
        "silent" => Saying::Silent,
        "twice" => Saying::Twice,
        "repeats" => Saying::Repeats(repeated(words, scenario)?),
        "bytes" => Saying::Bytes(bytes(words)?),
        "anything" => Saying::Anything,
        _ => {
            let what = format!("`{word}` is nothing that can be told");
            return Err(words.at_last(what, allowed(rounds)));
        }
    })
}

pub fn bit(words: &mut Words) -> Parsed<u8> {
    match words.take() {
        Some("0") => Ok(0),
        Some("1") => Ok(1),
        Some(word) => Err(words.at_last(format!("`{word}` is no bit"), "0, 1")),
        None => Err(words.at_next("the bit is missing", "0, 1")),
    }
}

fn choice(words: &mut Words) -> Parsed<u8> {
    match words.take_if(&["none"]) {
        true => Ok(NONE),
        false => bit(words).map_err(|mistake| Mistake {
            allowed: "0, 1, none".into(),
            ..mistake
        }),
    }
}

/// The numbers of a list, which may be anybody's and nobody's; `nothing` for none.
fn list(words: &mut Words) -> Parsed<Vec<u32>> {
    let form = format!("up to {MOST_LISTED} numbers, as in lists 3 5 1000-1009, or lists nothing");
    if words.take_if(&["nothing"]) {
        return Ok(Vec::new());
    }
    let mut all = BTreeSet::new();
    let is_number = |word: &str| word.starts_with(|c: char| c.is_ascii_digit());
    while words.peek().is_some_and(is_number) && !starts_deed(words) {
        let word = words.take().unwrap_or_default();
        for number in span(words, word, &form)? {
            if !all.insert(number) {
                return Err(words.at_last(format!("{number} is listed twice"), form));
            }
            if all.len() > MOST_LISTED {
                return Err(words.at_last("these are too many numbers", form));
            }
        }
    }
    match all.is_empty() {
        true => Err(words.at_next("the numbers are missing", form)),
        false => Ok(all.into_iter().collect()),
    }
}

fn repeated(words: &mut Words, scenario: &Scenario) -> Parsed<u32> {
    let form = format!("a correct one: {}", words::numbers(scenario.correct.keys()));
    let Some(word) = words.take() else {
        return Err(words.at_next("it is not said whom", form));
    };
    match number(word) {
        Some(number) if scenario.correct.contains_key(&number) => Ok(number),
        _ => Err(words.at_last(format!("`{word}` is no correct one"), form)),
    }
}

/// Pairs of hex digits, up to the next deed or `and`.
pub fn bytes(words: &mut Words) -> Parsed<Vec<u8>> {
    let form =
        format!("pairs of hex digits, at most {MOST_BYTES} bytes: bytes 00000003 03 01 0000");
    let mut all = Vec::new();
    while words.peek().is_some_and(|word| word != "and") && !starts_deed(words) {
        let word = words.take().unwrap_or_default();
        let is_hex = word.bytes().all(|byte| byte.is_ascii_hexdigit());
        let Some(bytes) = is_hex.then(|| checks::hex::bytes(word)).flatten() else {
            return Err(words.at_last(format!("`{word}` is not hex"), form));
        };
        all.extend(bytes);
        if all.len() > MOST_BYTES {
            return Err(words.at_last("these are too many bytes", form));
        }
    }
    match all.is_empty() {
        true => Err(words.at_next("the bytes are missing", form)),
        false => Ok(all),
    }
}
