//! Reads a scenario's text. docs/DRILL.md says how one is written.

mod deeds;
mod members;
mod sayings;
mod tokens;
mod when;

use crate::mistake::Mistake;
use crate::scenario::{Order, Scenario};
use deeds::{deed, deed_form};
use tokens::{tokens, Token, Words};
use when::when;

/// What a line of a scenario can begin with.
const HEADS: &str = "line, faulty, round, rounds, from, always, seed";

type Parsed<T> = Result<T, Mistake>;

/// The scenario, or the mistakes of its text, at most one for each line.
pub fn parse(text: &str) -> Result<Scenario, Vec<Mistake>> {
    // Some editors put a mark in front of a text.
    let text = text.trim_start_matches('\u{feff}');
    let mut scenario = Scenario {
        heading: heading(text),
        ..Scenario::default()
    };
    let all: Vec<Vec<Token>> = text.lines().map(tokens).collect();
    let lines = || {
        let numbered = all
            .iter()
            .enumerate()
            .filter(|(_, words)| !words.is_empty());
        numbered.map(|(i, words)| Words::of(i + 1, words))
    };
    // Orders name members, so that they are read only where the members are known.
    let mut mistakes: Vec<Mistake> = lines()
        .filter_map(|mut words| member(&mut words, &mut scenario).err())
        .collect();
    if mistakes.is_empty() && scenario.correct.is_empty() {
        let what = "nobody on the line is correct";
        mistakes.push(Mistake::of_text(what, "line 5=1 7=0 9=1"));
    }
    if mistakes.is_empty() {
        let orders = lines().filter(|words| when::is_head(words.peek()));
        mistakes.extend(orders.filter_map(|mut words| orders_of(&mut words, &mut scenario).err()));
    }
    match mistakes.is_empty() {
        true => Ok(scenario),
        false => Err(mistakes),
    }
}

/// The remarks in front of everything else, without what would steer a terminal.
fn heading(text: &str) -> Vec<String> {
    let remarks = text.lines().map_while(|line| line.strip_prefix('#'));
    let plain = |remark: &str| remark.replace(char::is_control, " ");
    remarks.map(|remark| plain(remark).trim().into()).collect()
}

/// Reads a line that says who is on the line, and passes over one with orders.
fn member(words: &mut Words, scenario: &mut Scenario) -> Parsed<()> {
    match words.peek() {
        Some("line") => members::correct(words, scenario),
        Some("faulty") => members::faulty(words, scenario),
        head if when::is_head(head) => Ok(()),
        head => {
            let what = format!("no line begins with `{}`", head.unwrap_or_default());
            Err(words.at_next(what, HEADS))
        }
    }
}

/// `round 3  3 tells 5: value 0  3 tells 7 9: value 1`.
fn orders_of(words: &mut Words, scenario: &mut Scenario) -> Parsed<()> {
    let (rounds, seed) = when(words)?;
    if words.peek().is_none() {
        return Err(words.at_next("it is not said what is done", deed_form(scenario)));
    }
    while words.peek().is_some() {
        let deed = deed(words, scenario, &rounds)?;
        scenario.orders.push(Order {
            line: words.line(),
            rounds: rounds.clone(),
            seed,
            deed,
        });
    }
    Ok(())
}
