//! What is read off a run: what was told whom, who was king, from when on all held one bit,
//! and how each one ended.

use std::collections::{BTreeMap, BTreeSet};
use std::fmt::{self, Display, Formatter};

use checks::packing::{kind_of, numbers_in, INIT, NONE, PROPOSE, ROSTER, VALUE};

use crate::run::{Round, Run, Seen};
use crate::scenario::Saying;

/// What bytes are to who expects a frame of a round.
#[derive(Clone, Debug, PartialEq, Eq)]
pub enum Reading {
    /// A frame that says something.
    Says(Saying),
    /// No bytes at all.
    Empty,
    /// Void under 11.
    WrongLength,
    /// Void under 12: of another round or kind.
    Stale,
    /// Void under 13.
    Garbled,
}

impl Reading {
    fn of(bytes: &[u8], round: u32) -> Reading {
        match engine::frame(bytes, round) {
            0 => Reading::Says(said(bytes, round)),
            _ if bytes.is_empty() => Reading::Empty,
            11 => Reading::WrongLength,
            12 => Reading::Stale,
            _ => Reading::Garbled,
        }
    }

    /// The words with a long list by its count.
    fn short(&self) -> String {
        match self {
            Reading::Says(saying) => saying.short(),
            void => void.to_string(),
        }
    }
}

impl Display for Reading {
    fn fmt(&self, f: &mut Formatter) -> fmt::Result {
        match self {
            Reading::Says(saying) => saying.fmt(f),
            Reading::Empty => f.write_str("empty"),
            Reading::WrongLength => f.write_str("wrong length"),
            Reading::Stale => f.write_str("stale"),
            Reading::Garbled => f.write_str("garbled"),
        }
    }
}

/// What a frame says that reads in its round.
fn said(bytes: &[u8], round: u32) -> Saying {
    let (bit, list) = (bytes[5], numbers_in(bytes));
    match kind_of(round) {
        INIT => Saying::Init,
        ROSTER => Saying::Lists(list),
        VALUE => Saying::Value(bit),
        PROPOSE => Saying::Propose(bit),
        _ if bit == NONE => Saying::Lists(list),
        _ => Saying::Opinion(bit, list),
    }
}

/// What was sent or told in a round, as it reads there: no frame, one, or several.
#[derive(Clone, Debug, PartialEq, Eq)]
pub struct Told(pub Vec<Reading>);

impl Told {
    pub fn of(frames: &[Vec<u8>], round: u32) -> Told {
        let frames = frames.iter();
        Told(frames.map(|bytes| Reading::of(bytes, round)).collect())
    }

    /// What a controller sent to all; it sends a frame.
    pub fn sent(bytes: &[u8], round: u32) -> Told {
        Told(vec![Reading::of(bytes, round)])
    }

    /// The words with long lists by their counts.
    pub fn short(&self) -> String {
        self.joined(Reading::short)
    }

    fn joined(&self, words: impl Fn(&Reading) -> String) -> String {
        let each: Vec<String> = self.0.iter().map(words).collect();
        match each.is_empty() {
            true => Saying::Silent.to_string(),
            false => each.join(" and "),
        }
    }
}

impl Display for Told {
    fn fmt(&self, f: &mut Formatter) -> fmt::Result {
        f.write_str(&self.joined(Reading::to_string))
    }
}

/// Receivers that were told the same.
pub struct Group {
    pub to: Vec<u32>,
    pub told: Told,
}

/// What a faulty one told whom in a round, in the order of the first receiver. Who gets no
/// tray is in no group.
pub fn groups(run: &Run, round: &Round, faulty: usize) -> Vec<Group> {
    let mut groups: Vec<Group> = Vec::new();
    for (&number, frames) in run.scenario.correct.keys().zip(&round.told[faulty]) {
        let Some(frames) = frames else { continue };
        let told = Told::of(frames, round.round);
        match groups.iter_mut().find(|group| group.told == told) {
            Some(group) => group.to.push(number),
            None => groups.push(Group {
                to: vec![number],
                told,
            }),
        }
    }
    groups
}

/// The kings of a phase, each with those who name it.
pub fn kings(run: &Run, phase: u32) -> BTreeMap<u32, Vec<u32>> {
    let mut kings: BTreeMap<u32, Vec<u32>> = BTreeMap::new();
    let Some(round) = run.rounds.get(2 + 3 * phase as usize) else {
        return kings;
    };
    let now = |seen: &&Seen| seen.state.round == round.round && seen.state.king != 0;
    for Seen { state, .. } in round.correct.iter().filter(now) {
        kings.entry(state.king).or_default().push(state.number);
    }
    kings
}

/// The first round from which on all correct ones hold the bit that they end with, if they
/// end with the same.
pub fn united<'a>(run: &'a Run) -> Option<&'a Round> {
    let bit = run.last().correct[0].state.bit;
    let hold = |round: &&Round| round.correct.iter().all(|seen| seen.state.bit == bit);
    run.rounds.iter().rev().take_while(hold).last()
}

/// How one correct controller ended.
pub struct Ending {
    pub number: u32,
    /// 2 if it has none.
    pub decision: u8,
    /// The round of the decision, or the one in which it is stuck.
    pub round: u32,
}

pub fn endings(run: &Run) -> Vec<Ending> {
    let ending = |seen: &Seen| Ending {
        number: seen.state.number,
        decision: seen.state.decision,
        round: seen.state.round,
    };
    run.last().correct.iter().map(ending).collect()
}

/// The lines of the text with an order that was never followed: the run was over by then, who
/// was to be told listened no more, or later orders speak of the same.
pub fn idle(run: &Run) -> BTreeSet<usize> {
    let scenario = run.scenario;
    let mut followed = vec![false; scenario.orders.len()];
    for round in run
        .rounds
        .iter()
        .filter(|round| round.round < run.last().round)
    {
        let now: Vec<usize> = (0..scenario.orders.len())
            .filter(|&place| scenario.orders[place].rounds.contains(&round.round))
            .collect();
        for &from in &scenario.faulty {
            for &to in listeners(run, round).iter().filter(|&&to| to != from) {
                let tells = |&&place: &&usize| scenario.orders[place].told(from, to).is_some();
                if let Some(&latest) = now.iter().rev().find(tells) {
                    followed[latest] = true;
                }
            }
        }
        for seen in round.correct.iter().filter(|seen| !seen.junk.is_empty()) {
            let to = seen.state.number;
            let junk = now
                .iter()
                .filter(|&&place| scenario.orders[place].junk(to).is_some());
            junk.for_each(|&place| followed[place] = true);
        }
    }
    let orders = scenario.orders.iter().zip(followed);
    let idle = orders.filter(|(_, followed)| !followed);
    idle.map(|(order, _)| order.line).collect()
}

/// Who takes what is told in a round: the correct ones that get a tray, and whoever sits behind
/// a faulty card.
fn listeners(run: &Run, round: &Round) -> Vec<u32> {
    let at_work = round.correct.iter().filter(|seen| !seen.tray.is_empty());
    let correct = at_work.map(|seen| seen.state.number);
    correct.chain(run.scenario.faulty.iter().copied()).collect()
}
