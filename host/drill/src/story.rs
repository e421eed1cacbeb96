//! Why a run ended as it did, in sentences: what the faulty ones did, from when on the
//! correct ones were of one mind, and what brought it about.

mod lies;
mod phases;

use std::collections::{BTreeMap, BTreeSet};

use crate::facts::{endings, idle};
use crate::run::{Rule, Run, Seen};
use crate::words::{codes, named, phase, short_named, times};
use lies::lies;
use phases::phases;

pub use phases::named_kings;

const PRINTED: &str = "The correct ones stop by the published method's own rule, when a king is \
                       named twice. They run on the reference, not on the engine.";

const ENGINE_STOPS: &str = "Nobody can know when all agree. So each goes on for as many phases as \
                            it has candidates for king, and then decides:";
const PRINTED_STOPS: &str = "By the printed rule each stops when the king to name is one that it \
                             has named before, or if there is none. New candidates move the others to \
                             later places, so that this may come early:";
const QUIET: &str = "Who has stopped is quiet, and counts as saying what its receiver says \
                     itself, opinions apart.";

/// The most of which each is told by itself.
const MOST_TOLD: usize = 4;

/// Who is on the line, and by which rule they stop.
pub fn members(run: &Run) -> Vec<String> {
    let brought = |bit: u8| {
        let such = run.scenario.correct.iter();
        let such = such.filter(|(_, &input)| input == bit);
        let numbers: Vec<u32> = such.map(|(&number, _)| number).collect();
        (!numbers.is_empty()).then(|| format!("{} brought {bit} in", named(&numbers)))
    };
    let inputs: Vec<String> = [1, 0].into_iter().filter_map(brought).collect();
    let faulty: Vec<u32> = run.scenario.faulty.iter().copied().collect();
    let liars = match faulty.len() {
        0 => "nobody is faulty".into(),
        1 => format!("{} is faulty", faulty[0]),
        _ => format!("{} are faulty", named(&faulty)),
    };
    let (size, inputs) = (run.scenario.size(), inputs.join(", "));
    let line = format!("A line of {size}: {inputs}; {liars}.");
    match run.rule {
        Rule::Engine => vec![line],
        Rule::Printed => vec![line, PRINTED.into()],
    }
}

/// What happened, a sentence or two to a line.
pub fn story(run: &Run) -> Vec<String> {
    let mut lines = lies(run);
    lines.extend(phases(run));
    lines.extend(stops(run));
    lines.extend(refusals(run));
    lines.extend(late(run));
    lines.extend(unheeded(run));
    lines
}

/// When they decided, and why then.
fn stops(run: &Run) -> Vec<String> {
    let mut stops: BTreeMap<u32, Vec<u32>> = BTreeMap::new();
    for ending in endings(run).iter().filter(|ending| ending.decision != 2) {
        stops.entry(ending.round).or_default().push(ending.number);
    }
    let stop = |(round, who): (&u32, &Vec<u32>)| {
        let who = match who.len() == run.scenario.correct.len() {
            true => "all".into(),
            false => short_named(who),
        };
        let phases = times(phase(*round).unwrap_or(0) as usize, "phase");
        format!("{who} in round {round}, after {phases}")
    };
    let why = match run.rule {
        Rule::Engine => ENGINE_STOPS,
        Rule::Printed => PRINTED_STOPS,
    };
    let each: Vec<String> = stops.iter().map(stop).collect();
    let mut lines = Vec::new();
    if !each.is_empty() {
        lines.push(format!("{why} {}.", each.join("; ")));
    }
    if each.len() > 1 {
        lines.push(QUIET.into());
    }
    lines
}

/// Refused trays and junk.
fn refusals(run: &Run) -> Vec<String> {
    let mut junk: BTreeSet<u8> = BTreeSet::new();
    let mut count = 0;
    let mut lines = Vec::new();
    for round in &run.rounds {
        for seen in &round.correct {
            count += seen.junk.len();
            junk.extend(&seen.junk);
            if let Some(refusal) = seen.refused {
                lines.push(format!(
                    "{} refused its tray of round {} under {refusal}, and is stuck.",
                    seen.state.number, round.round
                ));
            }
        }
    }
    if count > 0 {
        let under: Vec<u8> = junk.into_iter().collect();
        lines.push(format!(
            "Junk from the cable was refused {} (under {}), and changed nothing.",
            times(count, "time"),
            codes(&under)
        ));
    }
    lines
}

/// Who was first heard after round 1, and by whom; only how many, if they are many.
fn late(run: &Run) -> Vec<String> {
    let mut heard: BTreeMap<u32, BTreeMap<u32, Vec<u32>>> = BTreeMap::new();
    for Seen { state, .. } in &run.last().correct {
        let record = state.record().into_iter();
        for (number, round) in record.filter(|&(number, _)| number != state.number) {
            let by_round = heard.entry(number).or_default();
            by_round.entry(round).or_default().push(state.number);
        }
    }
    heard.retain(|_, rounds| rounds.keys().any(|&round| round > 1));
    if heard.len() > MOST_TOLD {
        let count = times(heard.len(), "card");
        return vec![format!("{count} were first heard after round 1 by some.")];
    }
    let when =
        |(round, who): (u32, Vec<u32>)| format!("by {} in the tray of round {round}", named(&who));
    let line = |(number, rounds): (u32, BTreeMap<u32, Vec<u32>>)| {
        let parts: Vec<String> = rounds.into_iter().map(when).collect();
        format!("{number} was first heard {}.", parts.join(", "))
    };
    heard.into_iter().map(line).collect()
}

/// The lines of the scenario that did nothing, which is mostly a slip.
fn unheeded(run: &Run) -> Option<String> {
    let lines: Vec<u32> = idle(run).into_iter().map(|line| line as u32).collect();
    let (line, was) = match lines.len() {
        0 => return None,
        1 => ("Line", "was"),
        _ => ("Lines", "were"),
    };
    Some(format!(
        "{line} {} of the scenario {was} not followed, or not all of it: the run was over by then, \
         or a later line says otherwise.",
        named(&lines)
    ))
}
