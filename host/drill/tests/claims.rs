//! Random scenarios on the compiled engine, held against document 01's claims.

mod random;

use drill::run::{run, Rule, Run};
use drill::scenario::{Deed, Junk, Order, Scenario, Whom};
use drill::verdict::verdict;
use drill::worst::worst;
use random::random_scenario;

/// Document 01's claims, of the states alone: all have decided by round 3 + 3n, alike, a
/// bit that one of them brought in; and who has decided stays so.
fn claims_hold(run: &Run) -> bool {
    let last = &run.rounds.last().expect("a round").correct;
    let decision = last[0].state.decision;
    let limit = 3 + 3 * (run.scenario.correct.len() + run.scenario.faulty.len()) as u32;
    let decided = last
        .iter()
        .all(|seen| seen.state.decision == decision && seen.state.round <= limit);
    let brought = run.scenario.correct.values().any(|&bit| bit == decision);
    decided && brought && decision < 2
}

/// Decisions never change, and nobody sends after its own.
fn decisions_stay(run: &Run) -> bool {
    (0..run.scenario.correct.len()).all(|place| {
        let states = run.rounds.iter().map(|round| &round.correct[place]);
        let decided = states.skip_while(|seen| seen.state.undecided());
        let mut kept = decided.map(|seen| (seen.state.decision, seen.state.round, seen.sent.len()));
        let first = kept.next();
        kept.all(|later| Some(later) == first) && first.is_none_or(|(_, _, sent)| sent == 0)
    })
}

#[test]
fn a_thousand_lines_agree() {
    let mut divided = 0;
    for seed in 0..1000 {
        let size = match seed % 10 {
            0 => 1 + seed as usize / 10 % 64,
            _ => 1 + seed as usize % 13,
        };
        let most = (size - 1) / 3;
        let faulty = if seed % 4 == 0 { most / 2 } else { most };
        let scenario = random_scenario(seed, size, faulty);
        let run = run(&scenario, Rule::Engine).expect("a run");
        let verdict = verdict(&run);
        assert!(scenario.is_promised());
        assert!(
            verdict.agreed && claims_hold(&run),
            "seed {seed}: {}",
            verdict.text
        );
        assert!(decisions_stay(&run), "seed {seed}");
        let after = drill::facts::united(&run).expect("one bit at the end");
        divided += usize::from(after.round > 6);
    }
    println!("1000 lines agree; in {divided} of them bits differed past phase 0");
    assert!(divided > 100);
}

/// With a third or more faulty the verdict is what the states say, and some lines break.
#[test]
fn where_nothing_is_promised_some_break() {
    let mut broken = 0;
    for seed in 0..500 {
        let size = 3 + seed as usize % 8;
        let faulty = size.div_ceil(3) + seed as usize % 2;
        let scenario = random_scenario(seed, size, faulty);
        let run = run(&scenario, Rule::Engine).expect("a run");
        let verdict = verdict(&run);
        assert!(!scenario.is_promised());
        assert_eq!(
            verdict.agreed,
            claims_hold(&run),
            "seed {seed}: {}",
            verdict.text
        );
        assert_eq!(verdict.text.starts_with("BROKEN"), !verdict.agreed);
        assert!(decisions_stay(&run), "seed {seed}");
        broken += usize::from(!verdict.agreed);
    }
    println!("{broken} of 500 lines with a third or more faulty break");
    assert!((1..500).contains(&broken));
}

/// The same scenario with junk of every kind for everybody in every round.
fn with_junk(quiet: &Scenario, seed: u64) -> Scenario {
    let kinds = [Junk::Noise, Junk::Cut, Junk::Old, Junk::Forged, Junk::Crowd];
    let junk = kinds.into_iter().chain([Junk::Bytes(vec![0; 7])]);
    let order = |junk| Order {
        line: 1,
        rounds: 1..=194,
        seed,
        deed: Deed::Junk {
            whom: Whom::All,
            junk,
        },
    };
    let mut loud = quiet.clone();
    loud.orders.extend(junk.map(order));
    loud
}

/// Junk from the cable is refused and changes nothing else.
#[test]
fn junk_changes_nothing() {
    for seed in 0..200 {
        let size = 1 + seed as usize % 9;
        let quiet = random_scenario(seed, size, (size - 1) / 3);
        let loud = with_junk(&quiet, seed);
        let quiet = run(&quiet, Rule::Engine).expect("a run");
        let loud = run(&loud, Rule::Engine).expect("a run");
        assert_eq!(quiet.rounds.len(), loud.rounds.len());
        for (a, b) in quiet.rounds.iter().zip(&loud.rounds) {
            for (a, b) in a.correct.iter().zip(&b.correct) {
                let (a, b) = ((&a.sent, a.state.image()), (&b.sent, b.state.image()));
                assert_eq!(a, b, "seed {seed}");
            }
        }
        let first = &loud.rounds[0].correct[0].junk;
        assert_eq!(first, &[4, 4, 5, 6, 7, 4], "seed {seed}");
    }
}

/// Who has decided refuses every kind of junk under 2, while others still work.
#[test]
fn a_quiet_one_refuses_junk() {
    let mut quiet = 0;
    for seed in 0..300 {
        let loud = with_junk(&random_scenario(seed, 7, 2), seed);
        for rule in [Rule::Engine, Rule::Printed] {
            let run = run(&loud, rule).expect("a run");
            let rounds = run
                .rounds
                .iter()
                .filter(|round| round.round < run.last().round);
            for round in rounds {
                let decided = round.correct.iter().filter(|seen| !seen.state.undecided());
                for seen in decided {
                    assert_eq!(seen.junk, [2; 6], "seed {seed}");
                    quiet += 1;
                }
            }
        }
    }
    println!("{quiet} times a quiet one got junk");
    assert!(quiet > 0);
}

/// The published rule breaks lines that hold by the engine's.
#[test]
fn the_printed_rule_breaks_lines() {
    let mut broken = 0;
    for seed in 0..500 {
        let scenario = random_scenario(seed, 4 + seed as usize % 4, 1);
        let agreed = |rule| verdict(&run(&scenario, rule).expect("a run")).agreed;
        assert!(agreed(Rule::Engine), "seed {seed}");
        broken += usize::from(!agreed(Rule::Printed));
    }
    println!("the printed rule breaks {broken} of 500 lines");
    assert!((1..500).contains(&broken));
}

/// The worst of more liars is no better, and where too many are faulty it breaks.
#[test]
fn the_worst_is_kept() {
    let line = drill::parse::parse("line 4=1 6=0 8=1 10=0\nfaulty 2\n").expect("a line");
    let last = |tries: u64| {
        let kept = worst(&line, tries, Rule::Engine);
        let run = run(&kept, Rule::Engine).expect("a run");
        assert!(verdict(&run).agreed);
        (
            run.rounds.len(),
            drill::facts::united(&run).map(|round| round.round),
        )
    };
    assert!(last(1) < last(300) && last(50) <= last(300));
    assert_eq!(last(300).0, 18);
    let three = drill::parse::parse("line 5=0 7=1\nfaulty 3\n").expect("a line");
    let kept = worst(&three, 100, Rule::Engine);
    assert!(!verdict(&run(&kept, Rule::Engine).expect("a run")).agreed);
    assert!(kept.heading[0].contains("BROKEN"), "{:?}", kept.heading);
}

/// Where a third is faulty, made-up numbers come to a third of the lists: over 64 of them get
/// the tray refused under 8. Whoever refuses its tray is stuck, and that breaks the line.
#[test]
fn a_refused_tray_is_shown() {
    let text =
        "line 5=0 7=1\nfaulty 3\nround 1 3 plays along\nround 2 3 tells all: lists 100-163\n";
    let scenario = drill::parse::parse(text).expect("a scenario");
    let run = run(&scenario, Rule::Engine).expect("a run");
    assert!(run.rounds[1]
        .correct
        .iter()
        .all(|seen| seen.refused == Some(8)));
    assert_eq!(verdict(&run).text, "BROKEN: 5 and 7 never decided");
    let shown = drill::table::shown(&run, 100, false);
    assert!(shown.contains("tray refused 8") && shown.contains("stuck"));
    assert!(shown.contains("- 5 refused its tray of round 2 under 8, and is stuck.\n"));
}
