//! Where everything is drawn: a lane for each controller, a column for each round.

use crate::facts::{groups, Group};
use crate::run::{Round, Run};

use crate::words::phase;

/// A box is what one controller did in one round. In front of it is a gutter for the
/// lines that show who was told what.
pub const BOX: u32 = 108;
pub const GUTTER: u32 = 18;
pub const PITCH: u32 = GUTTER + BOX;
/// The heading of a stage: its name, and the rounds.
pub const HEAD: u32 = 54;
/// In front of a phase, for the crowns.
const CROWNS: u32 = 52;
const RIGHT: u32 = 12;

/// Above the first lane, for what is shown at the end of a line to it.
pub const EDGE: u32 = 6;
/// A lane's box, and the space above it.
pub const ABOVE: u32 = 6;
pub const TALL: u32 = 40;
/// The line below the box for what was refused.
const TAG: u32 = 16;
/// A part of a faulty one's box: what it told one group.
pub const PART: u32 = 34;
pub const GAP: u32 = 4;
/// The line below the parts for those that are not drawn.
pub const MORE: u32 = 16;
/// The most parts that are drawn.
pub const MOST_PARTS: usize = 4;

/// The most on a line for words at the ends of the lines to receivers.
const MOST_WITH_WORDS: usize = 16;

pub struct Plan<'a> {
    pub run: &'a Run<'a>,
    /// In rising order of the numbers.
    pub lanes: Vec<Lane>,
    /// What was told in each round by each faulty one.
    pub told: Vec<Vec<Vec<Group>>>,
    /// Of all lanes.
    pub height: u32,
    /// The width of the column with the lanes' names.
    pub names: u32,
    /// Whether it is drawn for a page, where a reader can point at something.
    pub live: bool,
}

pub struct Lane {
    pub number: u32,
    pub who: Who,
    pub top: u32,
    pub height: u32,
}

impl Lane {
    /// The middle of its boxes, from its top.
    pub fn middle(&self) -> u32 {
        match self.who {
            Who::Correct(_) => ABOVE + TALL / 2,
            Who::Faulty(_) => self.height / 2,
        }
    }
}

/// Correct or faulty, with the place among those.
#[derive(Clone, Copy)]
pub enum Who {
    Correct(usize),
    Faulty(usize),
}

/// The rounds that are drawn together: the start, or a phase.
pub struct Stage<'a> {
    pub phase: Option<u32>,
    pub rounds: &'a [Round],
}

impl<'a> Plan<'a> {
    pub fn of(run: &'a Run<'a>, live: bool) -> Plan<'a> {
        let faulty = 0..run.scenario.faulty.len();
        let in_round = |round| {
            faulty
                .clone()
                .map(|place| groups(run, round, place))
                .collect()
        };
        let told: Vec<Vec<Vec<Group>>> = run.rounds.iter().map(in_round).collect();
        let lanes = lanes(run, &told);
        let digits = lanes.iter().map(|lane| lane.number.to_string().len()).max();
        Plan {
            run,
            height: lanes.last().map_or(0, |lane| lane.top + lane.height),
            names: 96.max(26 + 10 * digits.unwrap_or(1) as u32),
            lanes,
            told,
            live,
        }
    }

    pub fn stages(&self) -> Vec<Stage<'a>> {
        let rounds: &'a [Round] = &self.run.rounds;
        let (start, phases) = rounds.split_at(rounds.len().min(2));
        let all = std::iter::once(start).chain(phases.chunks(3));
        let stage = |rounds: &'a [Round]| Stage {
            phase: phase(rounds[0].round),
            rounds,
        };
        all.map(stage).collect()
    }

    /// What a faulty one told in a round.
    pub fn groups(&self, round: &Round, place: usize) -> &[Group] {
        &self.told[round.round as usize - 1][place]
    }

    /// Whether there is room for words at the ends of lines; else there is one sign.
    pub fn has_words(&self) -> bool {
        self.lanes.len() <= MOST_WITH_WORDS
    }

    /// The lane of a number of the line.
    pub fn lane(&self, number: u32) -> Option<&Lane> {
        self.lanes.iter().find(|lane| lane.number == number)
    }
}

impl Stage<'_> {
    pub fn name(&self) -> String {
        self.phase
            .map_or("Start".into(), |phase| format!("Phase {phase}"))
    }

    /// The name with the rounds, for who does not see the drawing.
    pub fn spoken(&self) -> String {
        let (first, last) = (
            self.rounds[0].round,
            self.rounds[self.rounds.len() - 1].round,
        );
        match first == last {
            true => format!("{}, round {first}", self.name()),
            false => format!("{}, rounds {first} to {last}", self.name()),
        }
    }

    /// Where the box of a column begins.
    pub fn column(&self, place: usize) -> u32 {
        self.crowns() + GUTTER + PITCH * place as u32
    }

    pub fn width(&self) -> u32 {
        self.column(self.rounds.len()) - GUTTER + RIGHT
    }

    fn crowns(&self) -> u32 {
        self.phase.map_or(0, |_| CROWNS)
    }
}

fn lanes(run: &Run, told: &[Vec<Vec<Group>>]) -> Vec<Lane> {
    let correct = run.scenario.correct.keys().enumerate();
    let faulty = run.scenario.faulty.iter().enumerate();
    let mut all: Vec<(u32, Who)> = correct
        .map(|(place, &n)| (n, Who::Correct(place)))
        .collect();
    all.extend(faulty.map(|(place, &n)| (n, Who::Faulty(place))));
    all.sort_by_key(|(number, _)| *number);
    let mut top = EDGE;
    let mut lanes = Vec::new();
    for (number, who) in all {
        let height = match who {
            Who::Correct(place) => correct_height(run, place),
            Who::Faulty(place) => {
                let tallest = told.iter().map(|round| parts_height(&round[place])).max();
                2 * ABOVE + tallest.unwrap_or(0).max(PART)
            }
        };
        lanes.push(Lane {
            number,
            who,
            top,
            height,
        });
        top += height;
    }
    lanes
}

fn correct_height(run: &Run, place: usize) -> u32 {
    let mut seen = run.rounds.iter().map(|round| &round.correct[place]);
    let refuses = seen.any(|seen| !seen.junk.is_empty() || seen.refused.is_some());
    2 * ABOVE + TALL + if refuses { TAG } else { 0 }
}

/// Where a part begins, if the first one begins at `top`.
pub fn part_top(top: u32, place: usize) -> u32 {
    top + (PART + GAP) * place as u32
}

/// How tall the drawn parts of a faulty one's box are together.
pub fn parts_height(groups: &[Group]) -> u32 {
    let drawn = groups.len().min(MOST_PARTS) as u32;
    let more = if groups.len() > MOST_PARTS { MORE } else { 0 };
    (drawn * (PART + GAP)).saturating_sub(GAP) + more
}
