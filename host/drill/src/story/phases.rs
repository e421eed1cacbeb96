//! How the bits of the correct ones moved, phase by phase, until all held one.

use std::collections::BTreeMap;

use crate::facts::{endings, kings, united};
use crate::run::{Round, Run};
use crate::words::short_named;

/// The most phases that are told one by one; of more the first and the last few.
const MOST_PHASES: usize = 6;
const FIRST_PHASES: usize = 3;

pub fn phases(run: &Run) -> Vec<String> {
    let united = united(run);
    let bit = run.last().correct[0].state.bit;
    if united.is_some_and(|round| round.round == 1) {
        return vec![format!(
            "All correct ones brought {bit} in, and held it throughout."
        )];
    }
    // A phase moves bits in the making of its turn and of the value after it.
    let last = united.unwrap_or(run.last()).round.saturating_sub(5) / 3;
    let reigned = |phase: &u32| !kings(run, *phase).is_empty();
    let mut lines: Vec<String> = (0..=last)
        .filter(reigned)
        .map(|phase| told(run, phase))
        .collect();
    if lines.len() > MOST_PHASES + 1 {
        let behind = lines.len() - (MOST_PHASES - FIRST_PHASES);
        let between = format!("Phases {FIRST_PHASES} to {} did not settle it.", behind - 1);
        lines.splice(FIRST_PHASES..behind, [between]);
    }
    match united {
        Some(from) => lines.extend(sure(run, from, bit)),
        None => lines.push("At the end the correct ones held different bits.".into()),
    }
    lines
}

/// Who was king in a phase, who changed its bit by what, and who held what after it.
fn told(run: &Run, phase: u32) -> String {
    let round = |round: u32| &run.rounds[(round as usize - 1).min(run.rounds.len() - 1)];
    let (turn, after) = (round(5 + 3 * phase), round(6 + 3 * phase));
    let mut moves = by_proposals(round(4 + 3 * phase), turn);
    moves.extend(by_kings(turn, after));
    if moves.is_empty() {
        moves.push(unmoved(turn).into());
    }
    let kings = named_kings(run, phase);
    format!(
        "Phase {phase}, {kings}: {}. {}",
        moves.join("; "),
        held(run, after)
    )
}

/// Why nobody changed its bit, where that can be said of all.
fn unmoved(turn: &Round) -> &'static str {
    let at_work = turn.correct.iter();
    let mut at_work = at_work.filter(|seen| !seen.is_out(turn.round)).peekable();
    match at_work.peek().is_some() && at_work.all(|seen| seen.state.strong == 1) {
        true => "each had heard two thirds propose its own bit, and kept it",
        false => "nobody changed its bit",
    }
}

/// The kings of a phase, and where they differ for whom each is one.
pub fn named_kings(run: &Run, phase: u32) -> String {
    let kings = kings(run, phase);
    let all = kings.len();
    let king = |(king, by): (u32, Vec<u32>)| {
        let faulty = if run.scenario.faulty.contains(&king) {
            ", faulty"
        } else {
            ""
        };
        match all {
            1 => format!("king {king}{faulty}"),
            _ => format!("king {king}{faulty}, for {}", short_named(&by)),
        }
    };
    let named: Vec<String> = kings.into_iter().map(king).collect();
    named.join(", and ")
}

/// Those whose bit changed in the making of a round, by a key of their state before it
/// and by the new bit.
fn changed(before: &Round, after: &Round) -> BTreeMap<(u32, u8), Vec<u32>> {
    let mut changed: BTreeMap<(u32, u8), Vec<u32>> = BTreeMap::new();
    for (was, is) in before.correct.iter().zip(&after.correct) {
        let (was, is) = (&was.state, &is.state);
        if was.bit != is.bit {
            changed
                .entry((was.king, is.bit))
                .or_default()
                .push(is.number);
        }
    }
    changed
}

fn by_proposals(before: &Round, turn: &Round) -> Vec<String> {
    let mut to: BTreeMap<u8, Vec<u32>> = BTreeMap::new();
    for ((_, bit), who) in changed(before, turn) {
        to.entry(bit).or_default().extend(who);
    }
    let line = |(bit, mut who): (u8, Vec<u32>)| {
        who.sort_unstable();
        format!(
            "{} heard a third propose {bit}, and took it",
            short_named(&who)
        )
    };
    to.into_iter().map(line).collect()
}

fn by_kings(turn: &Round, after: &Round) -> Vec<String> {
    let line = |((king, bit), who): ((u32, u8), Vec<u32>)| {
        format!("{} took {bit} from king {king}", short_named(&who))
    };
    changed(turn, after).into_iter().map(line).collect()
}

/// Who holds which bit in a round.
fn held(run: &Run, round: &Round) -> String {
    let [zero, one] = [0, 1].map(|bit| -> Vec<u32> {
        let holding = round.correct.iter().filter(|seen| seen.state.bit == bit);
        holding.map(|seen| seen.state.number).collect()
    });
    match (united(run), zero.is_empty() || one.is_empty()) {
        (Some(from), true) if from.round <= round.round => {
            let bit = from.correct[0].state.bit;
            format!("From round {} on all held {bit}.", from.round)
        }
        (_, true) => format!(
            "In round {}, all held {}, but not for good.",
            round.round,
            u8::from(zero.is_empty())
        ),
        _ => format!(
            "In round {}, 0 was held by {}, 1 by {}.",
            round.round,
            short_named(&zero),
            short_named(&one)
        ),
    }
}

/// Why that is for good, where it is promised and there is somebody who could lie. It is so
/// from the round on in which all tell that bit as their value.
fn sure(run: &Run, from: &Round, bit: u8) -> Option<String> {
    let (correct, faulty) = (run.scenario.correct.len(), run.scenario.faulty.len());
    let others = match faulty {
        1 => "the faulty one".into(),
        _ => format!("the {faulty} faulty ones"),
    };
    let (size, value) = (run.scenario.size(), from.round.next_multiple_of(3));
    let line = format!(
        "In round {value} the {correct} correct ones of {size} tell each other {bit}, which is two \
         thirds and more. So each proposes it, is sure of it from that phase on, and follows no \
         king against it: {others} cannot change that."
    );
    let first = endings(run).iter().map(|ending| ending.round).min();
    let told = first.is_some_and(|first| value < first);
    (run.scenario.is_promised() && faulty > 0 && told).then_some(line)
}
