//! Reads when something is done: the words at the head of a line.

use std::ops::RangeInclusive;

use crate::parse::tokens::{number, span, Words};
use crate::parse::Parsed;
use crate::scenario::{Order, LAST_SENT};

/// Whether a line that begins so has orders.
pub fn is_head(word: Option<&str>) -> bool {
    matches!(word, Some("round" | "rounds" | "from" | "always" | "seed"))
}

/// The rounds of a line's orders, and the seed.
pub fn when(words: &mut Words) -> Parsed<(RangeInclusive<u32>, u64)> {
    let rounds = match words.take() {
        Some("round") => {
            let rounds = round_span(words, "a round: round 3")?;
            if rounds.start() != rounds.end() {
                return Err(words.at_last("these are several", "one round, or rounds 4-8"));
            }
            rounds
        }
        Some("rounds") => round_span(words, "rounds from and to: rounds 4-8")?,
        Some("from") => {
            let first = round_span(words, "a round: from 9")?;
            if words.peek() == Some("to") {
                return Err(words.at_next("from has no end", "rounds 3-8 for rounds 3 to 8"));
            }
            *first.start()..=LAST_SENT
        }
        Some("seed") => return Ok((1..=LAST_SENT, seed(words)?)),
        _ => 1..=LAST_SENT,
    };
    match words.take_if(&["seed"]) {
        true => Ok((rounds, seed(words)?)),
        false => Ok((rounds, Order::SEED)),
    }
}

fn seed(words: &mut Words) -> Parsed<u64> {
    let form = "a number up to 4294967295, then what is done: seed 17 3 tells each: anything";
    let Some(word) = words.take() else {
        return Err(words.at_next("the seed is missing", form));
    };
    let what = format!("`{word}` is no seed");
    let seed = number(word).map(u64::from);
    seed.ok_or_else(|| words.at_last(what, form))
}

fn round_span(words: &mut Words, form: &str) -> Parsed<RangeInclusive<u32>> {
    let Some(word) = words.take() else {
        return Err(words.at_next("the round is missing", form));
    };
    let allowed = format!("{form}; rounds are 1 to {LAST_SENT}");
    let rounds = span(words, word, &allowed)?;
    match *rounds.end() <= LAST_SENT {
        true => Ok(rounds),
        false => {
            let what = format!("in round {} nothing is sent any more", rounds.end());
            Err(words.at_last(what, allowed))
        }
    }
}
