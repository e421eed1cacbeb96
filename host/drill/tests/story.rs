//! What the story says of the bits in a run is so in its states: on random lines, on lines
//! where too many are faulty, by both rules.

mod random;

use drill::facts::{idle, united};
use drill::parse::parse;
use drill::run::{run, Rule, Run};
use drill::scenario::Saying;
use drill::story::story;
use random::random_scenario;

/// The words of a text between two others, if it has them.
fn between<'a>(text: &'a str, before: &str, after: &str) -> Option<&'a str> {
    let (_, rest) = text.split_once(before)?;
    rest.split_once(after).map(|(found, _)| found)
}

fn number(text: &str) -> u32 {
    text.parse().expect("a number")
}

/// The bits of the correct ones in a round, or at the end if the run is over by then.
fn bits(run: &Run, round: u32) -> Vec<u8> {
    let round = run.rounds.get(round as usize - 1).unwrap_or(run.last());
    round.correct.iter().map(|seen| seen.state.bit).collect()
}

/// Numbers as a sentence has them.
fn numbers(text: &str) -> Vec<u32> {
    let words = text.replace(" and ", " ").replace(',', "");
    let each = |word: &str| match word.split_once('-') {
        Some((first, last)) => (number(first)..=number(last)).collect::<Vec<u32>>(),
        None => vec![number(word)],
    };
    words.split_whitespace().flat_map(each).collect()
}

fn holding(run: &Run, round: u32, bit: u8) -> Vec<u32> {
    let numbers = run.scenario.correct.keys().zip(bits(run, round));
    numbers
        .filter(|(_, b)| *b == bit)
        .map(|(&n, _)| n)
        .collect()
}

/// Holds a sentence against the states; whether it was one that can be held.
fn hold(run: &Run, line: &str) -> bool {
    let size = run.scenario.correct.len();
    if let Some(bit) = between(
        line,
        "All correct ones brought ",
        " in, and held it throughout",
    ) {
        let bit = number(bit) as u8;
        assert!((1..=run.last().round).all(|round| bits(run, round) == vec![bit; size]));
        return true;
    }
    if let Some(round) = line
        .strip_prefix("In round ")
        .and_then(|rest| rest.split_once(" the "))
    {
        let (round, _) = round;
        let bit = number(between(line, "tell each other ", ",").expect("a bit")) as u8;
        let seen = &run.rounds[number(round) as usize - 1].correct;
        let told = seen.iter().map(|seen| (seen.sent[4], seen.sent[5]));
        assert!(told.eq(vec![(3, bit); size]), "{line}");
        assert!(3 * size >= 2 * run.scenario.size());
        return true;
    }
    let Some(phase) = between(line, "Phase ", ",") else {
        return false;
    };
    let after = 6 + 3 * number(phase);
    if let Some(round) = between(line, "From round ", " on all held ") {
        let bit = number(between(line, "on all held ", ".").expect("a bit")) as u8;
        let first = number(round);
        assert!((first..=run.last().round).all(|round| bits(run, round) == vec![bit; size]));
        assert_ne!(bits(run, first - 1), vec![bit; size], "{line}");
    } else if let Some(bit) = between(line, " all held ", ", but not for good") {
        assert_eq!(bits(run, after), vec![number(bit) as u8; size], "{line}");
    } else if line.contains(" of them") {
        return false;
    } else {
        let zero = between(line, " 0 was held by ", ", 1 by ").expect("who holds 0");
        let one = between(line, ", 1 by ", ".").expect("who holds 1");
        let held = [0, 1].map(|bit| holding(run, after, bit));
        assert_eq!([numbers(zero), numbers(one)], held, "{line}");
    }
    true
}

fn hold_story(run: &Run) -> usize {
    let lines = story(run);
    let held = lines.iter().filter(|line| hold(run, line)).count();
    let apart = "At the end the correct ones held different bits.";
    let last = bits(run, run.last().round);
    let differ = last.iter().any(|&bit| bit != last[0]);
    assert_eq!(lines.iter().any(|line| line == apart), differ, "{lines:?}");
    assert_eq!(united(run).is_none(), differ);
    held
}

#[test]
fn what_it_says_of_the_bits_is_so() {
    let mut held = 0;
    for seed in 0..600 {
        let size = 1 + seed as usize % 10;
        let most = match seed % 3 {
            0 => (size - 1) / 3,
            1 => (size - 1) / 2,
            _ => size - 1,
        };
        let scenario = random_scenario(seed, size, most);
        for rule in [Rule::Engine, Rule::Printed] {
            held += hold_story(&run(&scenario, rule).expect("a run"));
        }
    }
    println!("{held} sentences on bits held against the states");
    assert!(held > 2000);
}

/// In the making of a turn all come to one bit, and in the next step the king turns all of
/// them: nobody was sure yet.
#[test]
fn one_bit_is_not_for_good_before_all_have_told_it() {
    let text = "line 5=1 7=1 9=0\nfaulty 3\nalways 3 plays along\n\
                round 3 3 tells 5 7: value 1 3 tells 9: value 0\n\
                round 4 3 tells all: propose none\nround 5 3 tells all: opinion 0\n";
    let scenario = parse(text).expect("a scenario");
    let run = run(&scenario, Rule::Engine).expect("a run");
    assert_eq!(bits(&run, 5), [1, 1, 1]);
    assert_eq!(united(&run).map(|round| round.round), Some(6));
    hold_story(&run);
}

/// Where nobody can go on, nothing is said of phases that there were not.
#[test]
fn of_stuck_ones_no_phase_is_told() {
    let text = "line 5=0 7=1\nfaulty 3\nround 1 3 plays along\n\
                round 2 3 tells all: lists 100-163\n";
    let scenario = parse(text).expect("a scenario");
    let run = run(&scenario, Rule::Engine).expect("a run");
    hold_story(&run);
    assert!(!story(&run).iter().any(|line| line.starts_with("Phase")));
}

/// A single correct one that too many liars turn did not hold its bit throughout.
#[test]
fn a_turned_one_did_not_hold_its_bit() {
    let text = "line 5=1\nfaulty 10 12\nalways faulty tell all: bit 0\n";
    let scenario = parse(text).expect("a scenario");
    let run = run(&scenario, Rule::Engine).expect("a run");
    hold_story(&run);
    assert!(!story(&run).iter().any(|line| line.contains("throughout")));
}

#[test]
fn lines_that_do_nothing_are_named() {
    let text = "line 5=1 7=0 9=1\nfaulty 3\nround 2 3 tells 5: silent\nround 20 3 plays along\n\
                round 15 junk for 5: noise\nalways 3 tells all: bit 0\n";
    let scenario = parse(text).expect("a scenario");
    let run = run(&scenario, Rule::Engine).expect("a run");
    assert_eq!(run.last().round, 15);
    assert!(idle(&run).into_iter().eq([3, 4, 5]));
    let last = story(&run).pop().expect("a line");
    assert!(
        last.starts_with("Lines 3-5 of the scenario were not followed"),
        "{last}"
    );
}

/// What a card sends is named by how it reads, whatever the scenario calls it.
#[test]
fn bytes_are_named_by_how_they_read() {
    let text = "line 5=1 7=0 9=1\nfaulty 3\nround 1 3 tells 5: bytes ff 3 tells 7: cut\n\
                round 2 3 tells 5: stale 3 tells 7: bytes 00000001 01 02 0000\n";
    let scenario = parse(text).expect("a scenario");
    let run = run(&scenario, Rule::Engine).expect("a run");
    let told = |round: usize| {
        let groups = drill::facts::groups(&run, &run.rounds[round - 1], 0);
        let lines = groups
            .iter()
            .map(|group| format!("{:?} {}", group.to, group.told));
        lines.collect::<Vec<String>>()
    };
    assert_eq!(told(1), ["[5, 7] wrong length", "[9] silent"]);
    assert_eq!(told(2), ["[5, 7] stale", "[9] silent"]);
    assert_eq!(Saying::Cut.to_string(), "cut");
}
