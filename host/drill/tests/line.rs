//! The line: trays keep document 01's guarantee, cards send what they are told to, and the
//! printed rule stops where document 002 does.

mod random;

use checks::packing::{unpack, Entry, MAX_TRAY};
use drill::facts::{endings, groups};
use drill::parse::parse;
use drill::run::{run, Round, Rule, Run};
use drill::scenario::Scenario;
use random::random_scenario;

/// The bytes under a number in a tray.
fn under(entries: &[Entry], number: u32) -> Vec<Vec<u8>> {
    let all = entries.iter().filter(|entry| entry.sender == number);
    all.map(|entry| entry.bytes.clone()).collect()
}

/// One tray: its round, the frame of each other correct one that sent one, nothing of those
/// that did not, and under faulty numbers what they told.
fn hold_tray(run: &Run, round: &Round, place: usize) {
    let tray = &round.correct[place].tray;
    let own = round.correct[place].state.number;
    assert_eq!(tray[..4], round.round.to_be_bytes());
    assert!(tray.len() <= MAX_TRAY);
    let entries = unpack(tray);
    assert!(entries.iter().all(|entry| entry.sender != own));
    for other in round.correct.iter().filter(|seen| seen.state.number != own) {
        let sent = match other.sent.is_empty() {
            true => Vec::new(),
            false => vec![other.sent.clone()],
        };
        assert_eq!(under(&entries, other.state.number), sent);
    }
    for (at, &faulty) in run.scenario.faulty.iter().enumerate() {
        assert_eq!(Some(under(&entries, faulty)), round.told[at][place]);
    }
    let numbers = run.scenario.numbers();
    assert!(entries.iter().all(|entry| numbers.contains(&entry.sender)));
}

fn hold_guarantee(run: &Run) -> usize {
    let mut trays = 0;
    for round in &run.rounds {
        for (place, seen) in round.correct.iter().enumerate() {
            assert_eq!(
                seen.sent.is_empty() || round.round == 195,
                seen.tray.is_empty()
            );
            if !seen.tray.is_empty() {
                hold_tray(run, round, place);
                trays += 1;
            }
        }
    }
    trays
}

fn scenario(text: &str) -> Scenario {
    parse(text).expect(text)
}

#[test]
fn every_tray_keeps_the_guarantee() {
    let mut trays = 0;
    for seed in 0..300 {
        let size = 1 + seed as usize % 12;
        let scenario = random_scenario(seed, size, (size - 1) / 3);
        for rule in [Rule::Engine, Rule::Printed] {
            let run = run(&scenario, rule).expect("a run");
            let refused = |round: &Round| round.correct.iter().any(|seen| seen.refused.is_some());
            assert!(!run.rounds.iter().any(refused), "seed {seed}");
            trays += hold_guarantee(&run);
        }
    }
    println!("{trays} trays keep the guarantee");
    assert!(trays > 10_000);
}

/// The most that a scenario can put in a tray fits one.
#[test]
fn the_fullest_tray_is_worked() {
    let bytes = |byte: &str| format!("bytes {}", byte.repeat(320));
    let all = ["00", "01", "02"].map(bytes).join(" and ");
    let scenario = scenario(&format!(
        "line 1=1\nfaulty 2-64\nalways faulty tell all: {all}\n"
    ));
    let run = run(&scenario, Rule::Engine).expect("a run");
    assert_eq!(unpack(&run.rounds[0].correct[0].tray).len(), 189);
    assert!(run
        .rounds
        .iter()
        .all(|round| round.correct[0].refused.is_none()));
    hold_guarantee(&run);
}

/// A stale card sends in each round what it should have sent in the one before.
#[test]
fn stale_frames_are_of_the_round_before() {
    let scenario = scenario("line 5=1 7=0 9=1\nfaulty 3\nalways 3 tells all: stale\n");
    let run = run(&scenario, Rule::Engine).expect("a run");
    for round in run
        .rounds
        .iter()
        .filter(|round| round.round < run.last().round)
    {
        let told = round.told[0][0].as_ref().expect("a tray");
        assert_eq!(told.len(), 1);
        assert_eq!(told[0][..4], (round.round - 1).to_be_bytes());
        let good = engine::frame(&told[0], round.round - 1);
        assert_eq!(good == 0, round.round > 1, "round {}", round.round);
    }
}

/// Chance is drawn once for all, or for each.
#[test]
fn all_are_told_the_same_and_each_its_own() {
    let apart = |whom: &str| {
        let text = format!("line 5=1 7=0 9=1\nfaulty 3\nalways 3 tells {whom}: anything\n");
        let scenario = scenario(&text);
        let run = run(&scenario, Rule::Engine).expect("a run");
        let several = |round: &&Round| groups(&run, round, 0).len() > 1;
        run.rounds.iter().filter(several).count()
    };
    assert_eq!(apart("all"), 0);
    assert_eq!(apart("5 7 9"), 0);
    assert!(apart("each") > 5);
}

/// Two candidates come in below at once, so that in phase 1 all name 3, and in phase 2 they
/// would name 5 again, which they named in phase 0.
#[test]
fn the_printed_rule_knows_all_kings_that_were_named() {
    let scenario = scenario(
        "line 5=1 7=0 9=1 11=0 13=1\nfaulty 1 3\nround 1 faulty tell 5 7: init\n\
         from 2 faulty play along\n",
    );
    let printed = run(&scenario, Rule::Printed).expect("a run");
    let kings = |round: usize| printed.rounds[round - 1].correct[0].state.king;
    assert_eq!([kings(3), kings(6)], [5, 3]);
    assert!(endings(&printed).iter().all(|ending| ending.round == 9));
    let engine = run(&scenario, Rule::Engine).expect("a run");
    assert_eq!(engine.last().round, 24);
}
