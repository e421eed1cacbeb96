//! Reads what is done: who tells whom, who plays along, and junk from the cable.

use std::collections::BTreeSet;
use std::ops::RangeInclusive;

use crate::parse::sayings::{bit, bytes, sayings, starts_deed};
use crate::parse::tokens::{number, span, Words};
use crate::parse::Parsed;
use crate::scenario::{Deed, Junk, Saying, Scenario, Whom};
use crate::words::{self, JUNK_ALLOWED};

/// What can be done, for a message.
pub fn deed_form(scenario: &Scenario) -> String {
    let faulty = words::numbers(&scenario.faulty);
    match scenario.faulty.first() {
        Some(one) => format!(
            "a faulty one ({faulty}) and what it does: {one} tells 5 7: bit 0, \
             {one} plays along; or junk for 5: noise"
        ),
        None => "junk for 5: noise; who is to lie is named by faulty 3".into(),
    }
}

/// One deed: `3 tells 5 7: value 0`, `3 plays along` or `junk for 5: noise`.
pub fn deed(
    words: &mut Words,
    scenario: &mut Scenario,
    rounds: &RangeInclusive<u32>,
) -> Parsed<Deed> {
    if words.take_if(&["junk"]) {
        return junk(words, scenario);
    }
    let who = subject(words, scenario)?;
    if words.take_if(&["plays", "play"]) {
        return plays_along(words, scenario, who);
    }
    if !words.take_if(&["tells", "tell"]) {
        let what = format!("after {} stands {}", shown(who), words.next_shown());
        return Err(words.at_next(what, "tells, plays along"));
    }
    let whom = whom(words, scenario, who)?;
    let what = sayings(words, scenario, rounds)?;
    Ok(Deed::Tells { who, whom, what })
}

fn shown(who: Option<u32>) -> String {
    who.map_or("faulty".into(), |number| number.to_string())
}

/// The faulty one that does it; nobody in particular for `faulty`, every one.
fn subject(words: &mut Words, scenario: &Scenario) -> Parsed<Option<u32>> {
    let form = deed_form(scenario);
    let word = words.take().unwrap_or_default();
    if word == "faulty" && !scenario.faulty.is_empty() {
        return Ok(None);
    }
    match number(word) {
        Some(number) if scenario.faulty.contains(&number) => Ok(Some(number)),
        Some(number) if scenario.correct.contains_key(&number) => {
            let what = format!("{number} is correct, and does as the rules say");
            Err(words.at_last(what, form))
        }
        Some(number) => Err(words.at_last(format!("{number} is not on the line"), form)),
        None => Err(words.at_last(format!("`{word}` is unknown here"), form)),
    }
}

/// `along`, or `along with 1`.
fn plays_along(words: &mut Words, scenario: &mut Scenario, who: Option<u32>) -> Parsed<Deed> {
    if !words.take_if(&["along"]) {
        let what = format!("after plays stands {}", words.next_shown());
        return Err(words.at_next(what, "plays along, plays along with 1"));
    }
    if words.take_if(&["with"]) {
        let bit = bit(words)?;
        let every: Vec<u32> = scenario.faulty.iter().copied().collect();
        for number in who.map_or(every, |number| vec![number]) {
            let before = *scenario.behind.entry(number).or_insert(bit);
            if before != bit {
                let what = format!("{number} was to be started with {before}");
                return Err(words.at_last(what, "one bit for each, in the whole scenario"));
            }
        }
    }
    Ok(Deed::Tells {
        who,
        whom: Whom::All,
        what: vec![Saying::Honest],
    })
}

/// `all:`, `all but 5:`, `each:` or `5 7-9:`.
fn whom(words: &mut Words, scenario: &Scenario, who: Option<u32>) -> Parsed<Whom> {
    let mut numbers = scenario.numbers();
    numbers.retain(|&number| Some(number) != who);
    let form = format!(
        "all, all but 5, each, or numbers of the line ({}), then a colon",
        words::numbers(&numbers)
    );
    if words.take_if(&["each"]) {
        colon(words, &form)?;
        return Ok(Whom::Each);
    }
    match words.take_if(&["all"]) {
        true if words.take_if(&["but"]) => {
            let but = receivers(words, &numbers, &form)?;
            numbers.retain(|number| !but.contains(number));
            match numbers.is_empty() {
                true => Err(words.at_last("nobody is left", form)),
                false => Ok(Whom::These(numbers)),
            }
        }
        true => colon(words, &form).map(|()| Whom::All),
        false => receivers(words, &numbers, &form).map(Whom::These),
    }
}

fn colon(words: &mut Words, form: &str) -> Parsed<()> {
    match words.take_if(&[":"]) {
        true => Ok(()),
        false => {
            let what = format!("the colon is missing before {}", words.next_shown());
            Err(words.at_next(what, form))
        }
    }
}

/// The receivers named before a colon, out of these numbers.
fn receivers(words: &mut Words, numbers: &BTreeSet<u32>, form: &str) -> Parsed<BTreeSet<u32>> {
    let mut these = BTreeSet::new();
    while words.peek().is_some_and(|word| word != ":") {
        let word = words.take().unwrap_or_default();
        let span = span(words, word, form)?;
        let mut found = numbers.range(span).peekable();
        if found.peek().is_none() {
            let what = format!("{word} is nobody else on the line");
            return Err(words.at_last(what, form));
        }
        for &number in found {
            if !these.insert(number) {
                return Err(words.at_last(format!("{number} is named twice"), form));
            }
        }
    }
    if these.is_empty() {
        return Err(words.at_next("nobody is named", form));
    }
    colon(words, form)?;
    Ok(these)
}

/// `for 5 7: noise`.
fn junk(words: &mut Words, scenario: &Scenario) -> Parsed<Deed> {
    if !words.take_if(&["for"]) {
        let what = format!("after junk stands {}", words.next_shown());
        return Err(words.at_next(what, "junk for 5 7: noise"));
    }
    let numbers: BTreeSet<u32> = scenario.correct.keys().copied().collect();
    let form = format!(
        "all, or correct ones ({}), then a colon",
        words::numbers(&numbers)
    );
    let whom = match words.take_if(&["all"]) {
        true => {
            colon(words, &form)?;
            Whom::All
        }
        false => Whom::These(receivers(words, &numbers, &form)?),
    };
    let junk = which_junk(words)?;
    match words.peek().is_none() || starts_deed(words) {
        true => Ok(Deed::Junk { whom, junk }),
        false => {
            let what = format!("after the junk stands {}", words.next_shown());
            Err(words.at_next(
                what,
                "another one that tells something, other junk, or the end of the line",
            ))
        }
    }
}

fn which_junk(words: &mut Words) -> Parsed<Junk> {
    Ok(match words.take() {
        Some("noise") => Junk::Noise,
        Some("cut") => Junk::Cut,
        Some("old") => Junk::Old,
        Some("forged") => Junk::Forged,
        Some("crowd") => Junk::Crowd,
        Some("bytes") => Junk::Bytes(bytes(words)?),
        Some(word) => {
            let what = format!("`{word}` is no junk");
            return Err(words.at_last(what, JUNK_ALLOWED));
        }
        None => return Err(words.at_next("it is not said which junk", JUNK_ALLOWED)),
    })
}
