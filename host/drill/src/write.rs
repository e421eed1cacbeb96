//! Writes a scenario out as text that reads as the same scenario.

use std::fmt::Write;
use std::ops::RangeInclusive;

use crate::scenario::{Deed, Order, Saying, Scenario, Whom, LAST_SENT};
use crate::words::numbers;

/// The text. What one does in the same rounds stands on one line.
pub fn write(scenario: &Scenario) -> String {
    let mut out = String::new();
    for remark in &scenario.heading {
        let _ = writeln!(out, "# {remark}");
    }
    let correct: Vec<(u32, u8)> = scenario.correct.iter().map(|(&n, &bit)| (n, bit)).collect();
    let runs = correct.chunk_by(|a, b| a.0 + 1 == b.0 && a.1 == b.1);
    let members: Vec<String> = runs.map(member).collect();
    let _ = writeln!(out, "line {}", members.join(" "));
    if !scenario.faulty.is_empty() {
        let _ = writeln!(out, "faulty {}", numbers(&scenario.faulty));
    }
    for together in scenario.orders.chunk_by(is_together) {
        let deeds = together.iter().map(|order| deed(scenario, &order.deed));
        let deeds: Vec<String> = deeds.collect();
        let _ = writeln!(out, "{:<13} {}", when(&together[0]), deeds.join("   "));
    }
    out
}

/// Neighbours that bring the same bit in.
fn member(run: &[(u32, u8)]) -> String {
    match run {
        [(first, bit), .., (last, _)] => format!("{first}-{last}={bit}"),
        _ => run
            .iter()
            .map(|(number, bit)| format!("{number}={bit}"))
            .collect(),
    }
}

/// Whether two orders are of the same rounds and the same one.
fn is_together(a: &Order, b: &Order) -> bool {
    let who = |order: &Order| match order.deed {
        Deed::Tells { who, .. } => who,
        Deed::Junk { .. } => None,
    };
    (&a.rounds, a.seed, who(a)) == (&b.rounds, b.seed, who(b))
}

fn when(order: &Order) -> String {
    let rounds = rounds(&order.rounds);
    match order.seed {
        Order::SEED => rounds,
        seed => format!("{rounds} seed {seed}"),
    }
}

fn rounds(rounds: &RangeInclusive<u32>) -> String {
    match (*rounds.start(), *rounds.end()) {
        (1, LAST_SENT) => "always".into(),
        (first, last) if first == last => format!("round {first}"),
        (first, LAST_SENT) => format!("from {first}"),
        (first, last) => format!("rounds {first}-{last}"),
    }
}

fn deed(scenario: &Scenario, deed: &Deed) -> String {
    match deed {
        Deed::Tells {
            who,
            whom: Whom::All,
            what,
        } if what[..] == [Saying::Honest] => plays_along(scenario, *who),
        Deed::Tells { who, whom, what } => {
            let what: Vec<String> = what.iter().map(ToString::to_string).collect();
            match who {
                Some(number) => format!("{number} tells {whom}: {}", what.join(" and ")),
                None => format!("faulty tell {whom}: {}", what.join(" and ")),
            }
        }
        Deed::Junk { whom, junk } => format!("junk for {whom}: {junk}"),
    }
}

/// With the bit that the controller behind the card was started with, if that was said.
fn plays_along(scenario: &Scenario, who: Option<u32>) -> String {
    let mut all = scenario
        .faulty
        .iter()
        .filter(|&&number| who.is_none_or(|w| w == number));
    let bits = all.try_fold(None, |bit, number| {
        match (bit, scenario.behind.get(number)) {
            (None, Some(&behind)) => Some(Some(behind)),
            (Some(bit), Some(&behind)) if bit == behind => Some(Some(bit)),
            _ => None,
        }
    });
    let along = match who {
        Some(number) => format!("{number} plays along"),
        None => "faulty play along".into(),
    };
    match bits.flatten() {
        Some(bit) => format!("{along} with {bit}"),
        None => along,
    }
}
