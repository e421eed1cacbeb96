//! Runs a scenario, and keeps all that was sent, told, worked and refused.
//!
//! In each round every correct controller gets one tray with the frames of the others, as
//! document 01's line guarantees it, and with what the faulty ones tell it. Behind each faulty card
//! a controller follows the rules: it works the trays that it gets, and the card sends
//! what it would send, or something else.

mod controller;
mod junk;
mod telling;

use checks::fields::Fields;
use checks::packing::{pack, Entry};
use checks::random::Random;

use crate::liar;
use crate::mistake::Mistake;
use crate::scenario::{Deed, Order, Saying, Scenario, Whom};
use controller::Controller;
use telling::Telling;

pub use controller::Rule;

pub type Frames = Vec<Vec<u8>>;

pub struct Run<'a> {
    pub scenario: &'a Scenario,
    pub rule: Rule,
    /// From round 1 to the one in which no correct one sends any more: all have decided, or
    /// are stuck.
    pub rounds: Vec<Round>,
}

pub struct Round {
    pub round: u32,
    /// In the order of the scenario's correct ones.
    pub correct: Vec<Seen>,
    /// What each faulty one told each correct one; nothing for those that get no tray.
    pub told: Vec<Vec<Option<Frames>>>,
}

impl Run<'_> {
    /// The last round.
    pub fn last(&self) -> &Round {
        self.rounds.last().expect("a run has a round")
    }
}

/// What is seen of a correct controller in a round.
pub struct Seen {
    /// Empty if it sends none.
    pub sent: Vec<u8>,
    pub state: Fields,
    /// The tray of the round that it was handed; empty if none.
    pub tray: Vec<u8>,
    /// The refusals of the junk that it got.
    pub junk: Vec<u8>,
    /// The refusal of the round's tray, which stops it for good. Only where too many are
    /// faulty.
    pub refused: Option<u8>,
}

impl Seen {
    fn of(one: &Controller) -> Seen {
        Seen {
            sent: one.sent.clone(),
            state: one.state(),
            tray: Vec::new(),
            junk: Vec::new(),
            refused: None,
        }
    }

    /// Whether it has no part in a round any more.
    pub fn is_out(&self, round: u32) -> bool {
        self.state.round < round
    }

    /// What it is then.
    pub fn out(&self) -> &'static str {
        match self.state.undecided() {
            true => "stuck",
            false => "quiet",
        }
    }
}

/// Runs until no correct one sends any more: all have decided, or are stuck.
pub fn run(scenario: &Scenario, rule: Rule) -> Result<Run<'_>, Mistake> {
    let mut line = Line::start(scenario, rule);
    let mut rounds = Vec::new();
    while line.is_at_work() {
        rounds.push(line.step()?);
    }
    rounds.push(line.seen());
    Ok(Run {
        scenario,
        rule,
        rounds,
    })
}

struct Line<'a> {
    scenario: &'a Scenario,
    round: u32,
    correct: Vec<Controller>,
    /// Behind each faulty card.
    behind: Vec<Controller>,
    /// The orders of the present round.
    orders: Vec<&'a Order>,
}

impl<'a> Line<'a> {
    fn start(scenario: &'a Scenario, rule: Rule) -> Line<'a> {
        let correct = scenario.correct.iter();
        let behind = |number: &u32| *scenario.behind.get(number).unwrap_or(&0);
        let faulty = scenario.faulty.iter();
        Line {
            scenario,
            round: 1,
            correct: correct
                .map(|(&n, &bit)| Controller::start(rule, n, bit))
                .collect(),
            behind: faulty
                .map(|n| Controller::start(rule, *n, behind(n)))
                .collect(),
            orders: scenario.in_round(1),
        }
    }

    /// Whether a correct one sends.
    fn is_at_work(&self) -> bool {
        self.correct.iter().any(|one| !one.sent.is_empty())
    }

    /// The present round without what happens in it.
    fn seen(&self) -> Round {
        let nothing = vec![None; self.correct.len()];
        Round {
            round: self.round,
            correct: self.correct.iter().map(Seen::of).collect(),
            told: vec![nothing; self.behind.len()],
        }
    }

    /// Carries the frames of one round.
    fn step(&mut self) -> Result<Round, Mistake> {
        let mut seen = self.seen();
        let to_correct: Vec<Handed> = self.correct.iter().map(|one| self.handed(one)).collect();
        let to_behind: Vec<Handed> = self.behind.iter().map(|one| self.handed(one)).collect();
        for (place, handed) in to_correct.into_iter().enumerate() {
            if self.correct[place].is_stuck() {
                continue;
            }
            seen.correct[place].junk = self.hand_junk(place, &handed.tray)?;
            let one = &mut self.correct[place];
            if one.sent.is_empty() {
                continue;
            }
            seen.correct[place].refused = work(one, &handed.tray);
            seen.correct[place].tray = handed.tray;
            for (told, frames) in seen.told.iter_mut().zip(handed.told) {
                told[place] = Some(frames);
            }
        }
        for (one, handed) in self.behind.iter_mut().zip(to_behind) {
            if !one.sent.is_empty() {
                work(one, &handed.tray);
            }
        }
        self.round += 1;
        self.orders = self.scenario.in_round(self.round);
        Ok(seen)
    }

    /// What one is told by each faulty one, and its tray.
    fn handed(&self, to: &Controller) -> Handed {
        let from = |behind| self.told(behind, to.number);
        let told: Vec<Frames> = self.behind.iter().map(from).collect();
        let entry = |sender: u32, bytes: &Vec<u8>| Entry {
            sender,
            bytes: bytes.clone(),
        };
        let sending = |one: &&Controller| one.number != to.number && !one.sent.is_empty();
        let correct = self.correct.iter().filter(sending);
        let mut entries: Vec<Entry> = correct.map(|one| entry(one.number, &one.sent)).collect();
        for (behind, frames) in self.behind.iter().zip(&told) {
            entries.extend(frames.iter().map(|bytes| entry(behind.number, bytes)));
        }
        entries.sort_by_key(|entry| entry.sender);
        Handed {
            tray: pack(self.round, &entries),
            told,
        }
    }

    /// What a faulty one tells another; nothing if no order speaks of it.
    fn told(&self, behind: &Controller, to: u32) -> Frames {
        let (round, from) = (self.round, behind.number);
        if from == to {
            return Vec::new();
        }
        let mut latest = self.orders.iter().rev();
        let told = latest.find_map(|order| Some((*order, order.told(from, to)?)));
        let Some((order, sayings)) = told else {
            return Vec::new();
        };
        let telling = Telling {
            round,
            behind,
            correct: &self.correct,
        };
        let draw = |saying: &Saying| match saying {
            Saying::Anything => {
                let mut random = chance(order, [round, from, drawn_for(order, to)]);
                liar::anything(&mut random, self.scenario, round)
            }
            _ => saying.clone(),
        };
        let drawn = sayings.iter().map(draw);
        drawn.flat_map(|saying| telling.frames(&saying)).collect()
    }

    /// Hands one the junk of the round; the refusals.
    fn hand_junk(&mut self, place: usize, tray: &[u8]) -> Result<Vec<u8>, Mistake> {
        let (round, one) = (self.round, &mut self.correct[place]);
        let mut refusals = Vec::new();
        for &order in &self.orders {
            let Some(junk) = order.junk(one.number) else {
                continue;
            };
            let mut random = chance(order, [round, 0, one.number]);
            match one.hand(&junk::bytes(junk, &mut random, round, one.number, tray)) {
                0 => return Err(no_junk(order, one.number, round)),
                refusal => refusals.push(refusal),
            }
        }
        Ok(refusals)
    }
}

struct Handed {
    tray: Vec<u8>,
    told: Vec<Frames>,
}

/// Hands over the round's tray. Whoever refuses it has no frame for the next round.
fn work(one: &mut Controller, tray: &[u8]) -> Option<u8> {
    match one.hand(tray) {
        0 => None,
        refusal => {
            one.sent.clear();
            Some(refusal)
        }
    }
}

fn no_junk(order: &Order, number: u32, round: u32) -> Mistake {
    let what = format!("{number} works these bytes as its tray of round {round}");
    Mistake::of_line(order.line, what, "junk that is refused")
}

/// For whom chance is drawn: one receiver, or all whom the order names.
fn drawn_for(order: &Order, to: u32) -> u32 {
    match &order.deed {
        Deed::Tells {
            whom: Whom::Each, ..
        } => to,
        Deed::Tells {
            whom: Whom::These(numbers),
            ..
        } => *numbers.first().unwrap_or(&to),
        _ => 0,
    }
}

/// What chance gives to an order, the same each time.
fn chance(order: &Order, key: [u32; 3]) -> Random {
    let mixed = |seed, part| Random::new(seed ^ u64::from(part)).word();
    Random::new(key.into_iter().fold(order.seed, mixed))
}
