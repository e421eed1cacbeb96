//! Reads who is on the line.

use crate::parse::tokens::{span, Words};
use crate::parse::Parsed;
use crate::scenario::{Scenario, MOST_ON_LINE};

/// `line 5=1 7-9=0`: correct ones, each with the bit that it brings in.
pub fn correct(words: &mut Words, scenario: &mut Scenario) -> Parsed<()> {
    let form = "a number with its bit, as in 5=1, or several: 5-9=1";
    words.take();
    somebody(words, form)?;
    while let Some(word) = words.take() {
        let (number, bit) = match word.split_once('=') {
            Some((number, "0")) => (number, 0),
            Some((number, "1")) => (number, 1),
            Some((_, bit)) => return Err(words.at_last(format!("`{bit}` is no bit"), form)),
            None => return Err(words.at_last(format!("`{word}` brings no bit in"), form)),
        };
        for number in span(words, number, form)? {
            has_room(words, scenario, number)?;
            scenario.correct.insert(number, bit);
        }
    }
    Ok(())
}

/// `faulty 3 10-12`.
pub fn faulty(words: &mut Words, scenario: &mut Scenario) -> Parsed<()> {
    let form = "a number alone, as in faulty 3, or several: 3-5";
    words.take();
    somebody(words, form)?;
    while let Some(word) = words.take() {
        if word.contains('=') {
            let what = format!("`{word}`: a faulty one brings no bit in");
            return Err(words.at_last(what, form));
        }
        for number in span(words, word, form)? {
            has_room(words, scenario, number)?;
            scenario.faulty.insert(number);
        }
    }
    Ok(())
}

fn somebody(words: &Words, form: &str) -> Parsed<()> {
    match words.peek() {
        Some(_) => Ok(()),
        None => Err(words.at_next("nobody is named", form)),
    }
}

/// Whether one more can be on the line under this number.
fn has_room(words: &Words, scenario: &Scenario, number: u32) -> Parsed<()> {
    if scenario.correct.contains_key(&number) || scenario.faulty.contains(&number) {
        let what = format!("{number} is on the line twice");
        return Err(words.at_last(what, "each number once, as correct or as faulty"));
    }
    if scenario.size() == MOST_ON_LINE {
        let what = format!("{number} would be one more than {MOST_ON_LINE} on the line");
        let allowed = format!("at most {MOST_ON_LINE}, the faulty ones counted");
        return Err(words.at_last(what, allowed));
    }
    Ok(())
}
