//! What the faulty ones did.

use std::cmp::Reverse;

use crate::facts::{groups, Group, Reading};
use crate::run::{Round, Run};
use crate::story::MOST_TOLD;
use crate::words::{short_named, times};

/// What the faulty ones did, the busiest liars first if there are many.
pub fn lies(run: &Run) -> Vec<String> {
    let all = run.scenario.faulty.iter().enumerate();
    let mut lies: Vec<(usize, String)> = all.map(|(place, &n)| lie(run, place, n)).collect();
    if lies.len() <= MOST_TOLD {
        return lies.into_iter().map(|(_, line)| line).collect();
    }
    lies.sort_by_key(|(apart, _)| Reverse(*apart));
    let others = lies.len() - MOST_TOLD;
    let busiest = lies.into_iter().take(MOST_TOLD).map(|(_, line)| line);
    let rest = format!("For {} more see the table.", times(others, "card"));
    busiest.chain([rest]).collect()
}

/// In how many rounds a faulty one told different things; the same with the first time and
/// with what of it was no frame.
fn lie(run: &Run, place: usize, number: u32) -> (usize, String) {
    let told = run.rounds.iter();
    let told = told.map(|round| (round, groups(run, round, place)));
    let apart: Vec<_> = told.filter(|(_, groups)| groups.len() > 1).collect();
    let told = match apart.first() {
        None => format!("Card {number} told everybody the same in each round"),
        Some((first, parts)) => format!(
            "Card {number} told them different things in {} of the {} in which they listened, \
             first in round {}: {}",
            apart.len(),
            times(run.rounds.len() - 1, "round"),
            first.round,
            parts_of(parts)
        ),
    };
    let who = if apart.is_empty() { "All" } else { "Some" };
    let line = match defects(run, place).join(", ") {
        none if none.is_empty() => format!("{told}."),
        some => format!("{told}. {who} got {some}."),
    };
    (apart.len(), line)
}

/// What the first few groups were told.
fn parts_of(groups: &[Group]) -> String {
    let first = groups.iter().take(3);
    let part = |group: &Group| format!("{} to {}", group.told.short(), short_named(&group.to));
    let parts: Vec<String> = first.map(part).collect();
    match groups.len() > 3 {
        true => format!("{}; and so on", parts.join("; ")),
        false => parts.join("; "),
    }
}

/// In how many rounds somebody got nothing, or something that is no frame.
fn defects(run: &Run, faulty: usize) -> Vec<String> {
    let kinds = [
        (None, "nothing"),
        (Some(Reading::Empty), "empty frames"),
        (Some(Reading::WrongLength), "frames of a wrong length"),
        (Some(Reading::Stale), "stale frames"),
        (Some(Reading::Garbled), "garbled frames"),
    ];
    let is = |group: &Group, defect: &Option<Reading>| match defect {
        Some(defect) => group.told.0.contains(defect),
        None => group.told.0.is_empty(),
    };
    let count = |defect: &Option<Reading>| {
        let has = |round: &&Round| {
            let mut told = groups(run, round, faulty).into_iter();
            told.any(|group| is(&group, defect))
        };
        run.rounds.iter().filter(has).count()
    };
    let counted = kinds.iter().map(|(defect, name)| (count(defect), name));
    let some = counted.filter(|(count, _)| *count > 0);
    some.map(|(count, name)| format!("{name} in {}", times(count, "round")))
        .collect()
}
