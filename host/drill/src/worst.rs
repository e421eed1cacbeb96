//! Looks for the liar that does most harm to a line, among random ones.

use crate::facts::{endings, kings, united};
use crate::liar::plan;
use crate::run::{run, Rule, Run};
use crate::scenario::Scenario;
use crate::verdict::verdict;
use crate::words::times;

/// How much harm was done, in the order of what counts most.
#[derive(Clone, Copy, PartialEq, Eq, PartialOrd, Ord)]
struct Harm {
    broken: bool,
    /// The round of the last decision.
    decided: u32,
    /// The first round from which on all held the bit that they end with.
    united: u32,
    /// In how many phases they named different kings.
    apart: usize,
}

impl Harm {
    fn of(run: &Run) -> Harm {
        let decided = endings(run).iter().map(|ending| ending.round).max();
        let phases = 0..run.scenario.size() as u32;
        Harm {
            broken: !verdict(run).agreed,
            decided: decided.unwrap_or(0),
            united: united(run).map_or(u32::MAX, |round| round.round),
            apart: phases.filter(|&phase| kings(run, phase).len() > 1).count(),
        }
    }
}

/// The scenario that decides last of so many, or breaks. Its heading says what it does.
pub fn worst(line: &Scenario, tries: u64, rule: Rule) -> Scenario {
    let with = |seed: u64| Scenario {
        heading: Vec::new(),
        behind: Default::default(),
        orders: plan(seed, line),
        ..line.clone()
    };
    let mut kept = with(1);
    let mut most = None;
    for seed in 1..=tries {
        let scenario = with(seed);
        let harm = Harm::of(&run(&scenario, rule).expect("a plan has no junk"));
        if most.is_none_or(|most| harm > most) {
            most = Some(harm);
            kept = scenario;
        }
    }
    let run = run(&kept, rule).expect("a plan has no junk");
    let (heading, last) = (heading(&run, tries), run.last().round);
    kept.heading = heading;
    kept.orders.retain(|order| *order.rounds.start() < last);
    kept
}

fn heading(run: &Run, tries: u64) -> Vec<String> {
    let harm = Harm::of(run);
    let bits = match harm.united {
        1 => "All correct ones held one bit throughout.".into(),
        u32::MAX => "The correct ones held different bits at the end.".into(),
        round => format!("From round {round} on all held the bit that they decided."),
    };
    let rule = match run.rule {
        Rule::Engine => "",
        Rule::Printed => ", with --rule printed",
    };
    vec![
        format!(
            "The worst of {tries} random liars{rule}: {}",
            verdict(run).text
        ),
        format!(
            "{bits} They named different kings in {}.",
            times(harm.apart, "phase")
        ),
    ]
}
