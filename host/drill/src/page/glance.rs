//! The whole run at a glance: a small cell for each controller in each round, in the
//! colour of its bit, or of what it told.

use std::collections::BTreeMap;
use std::fmt::Write;

use crate::facts::kings;
use crate::page::markup::{element, text};
use crate::page::plan::{Lane, Plan, Who};
use crate::page::short;
use crate::page::tone::Tone;
use crate::run::Round;

/// The heading with the numbers of phases and rounds, and the space between two phases.
const HEAD: u32 = 38;
const GAP: u32 = 4;

const WORDS: &str =
    "Every controller in every round: blue for bit 0, orange for bit 1. A faulty one's cells \
    have what it told others, in stripes where that differed: grey without a bit, hatched \
    what counts for nothing, blank where it was silent or nobody listens any more. Framed in \
    gold: the king of the phase, with a broken frame if only some name it. Framed in black, \
    or in white on a dark page: the decision. The lanes below have it in words. On a narrow \
    screen it scrolls sideways.";

/// How large the cells are: all of a run is to be seen at once.
struct Grid {
    names: u32,
    cell: u32,
    row: u32,
    /// What is left free of a cell on each side.
    edge: u32,
}

impl Grid {
    fn of(plan: &Plan) -> Grid {
        let row = match plan.lanes.len() {
            0..=12 => 26,
            13..=24 => 18,
            _ => 8,
        };
        let rounds = plan.run.rounds.len() as u32;
        let cell = (1080 / rounds).clamp(5, 36);
        Grid {
            names: plan.names,
            cell,
            row,
            edge: u32::from(cell >= 10),
        }
    }

    /// Whether a digit fits a cell, and a number a row.
    fn has_digits(&self) -> bool {
        self.cell >= 16 && self.has_names()
    }

    fn has_names(&self) -> bool {
        self.row >= 16
    }

    fn x(&self, round: u32) -> u32 {
        self.names + self.cell * (round - 1) + GAP * (round / 3)
    }

    fn y(&self, lane: usize) -> u32 {
        HEAD + self.row * lane as u32
    }

    /// A cell's outline, or that of a part of it: the `part`-th of so many.
    fn outline(&self, round: u32, lane: usize, part: u32, parts: u32) -> String {
        let (wide, tall) = (self.cell - 2 * self.edge, self.row - 2 * self.edge);
        let (top, bottom) = (tall * part / parts, tall * (part + 1) / parts);
        let (x, y) = (self.x(round) + self.edge, self.y(lane) + self.edge + top);
        format!("M{x} {y}h{wide}v{}h-{wide}z", bottom - top)
    }
}

pub fn glance(plan: &Plan) -> String {
    let grid = Grid::of(plan);
    let last = plan.run.rounds.len() as u32;
    let width = grid.x(last) + grid.cell + GAP;
    let height = grid.y(plan.lanes.len()) + GAP;
    let all = |draw: fn(&Plan, &Grid, usize, &Lane) -> String| -> String {
        let lanes = plan.lanes.iter().enumerate();
        lanes
            .map(|(place, lane)| draw(plan, &grid, place, lane))
            .collect()
    };
    // Frames lie above all cells, and decisions above all.
    let inner = heads(&grid, last) + &all(row) + &all(reigns) + &all(decision);
    let size = format!(r#"width="{width}" height="{height}" viewBox="0 0 {width} {height}""#);
    let open = format!(r#"svg class="glance" role="img" aria-label="{WORDS}" {size}"#);
    let drawn = element(&open, &inner);
    let area = r#"div class="wide" role="region" aria-label="At a glance" tabindex="0""#;
    element(
        "section",
        &(text("h2", "At a glance") + &element(area, &drawn) + &text(r#"p class="hint""#, WORDS)),
    )
}

/// The numbers of phases and rounds; where the cells are small, of every fifth phase and of
/// the round in which it begins.
fn heads(grid: &Grid, last: u32) -> String {
    let mut out = text(r#"text class="soft" x="12" y="14""#, "phase")
        + &text(r#"text class="soft" x="12" y="31""#, "round");
    let large = grid.cell >= 16;
    for phase in (0..last / 3).step_by(if large { 1 } else { 5 }) {
        let x = grid.x(3 + 3 * phase) + grid.cell / 2;
        let open = format!(r#"text class="middle" x="{x}" y="14""#);
        out += &text(&open, &phase.to_string());
    }
    let starts = (0..last / 3).step_by(5).map(|phase| 3 + 3 * phase);
    let rounds: Vec<u32> = match large {
        true => (1..=last).collect(),
        false => starts.collect(),
    };
    for round in rounds {
        let x = grid.x(round) + grid.cell / 2;
        let open = format!(r#"text class="soft middle" x="{x}" y="31""#);
        out += &text(&open, &round.to_string());
    }
    out
}

fn row(plan: &Plan, grid: &Grid, place: usize, lane: &Lane) -> String {
    let y = grid.y(place) + grid.row / 2 + 4;
    let (class, name, cells) = match lane.who {
        Who::Correct(at) => ("", lane.number.to_string(), correct(plan, grid, place, at)),
        Who::Faulty(at) => {
            let name = short::fitting(
                [format!("{} faulty", lane.number), lane.number.to_string()],
                12,
                grid.names - 16,
            );
            (r#" class="lie""#, name, faulty(plan, grid, place, at))
        }
    };
    let name = match grid.has_names() {
        true => text(&format!(r#"text{class} x="12" y="{y}""#), &name),
        false => String::new(),
    };
    name + &cells
}

/// A correct one's bits; from the decision on a thin line.
fn correct(plan: &Plan, grid: &Grid, place: usize, at: usize) -> String {
    let mut paths: BTreeMap<&str, String> = BTreeMap::new();
    let mut digits = String::new();
    for round in &plan.run.rounds {
        let (seen, now) = (&round.correct[at], round.round);
        if seen.is_out(now) {
            let middle = grid.y(place) + grid.row / 2;
            let line = format!("M{} {middle}h{}", grid.x(now), grid.cell);
            *paths.entry(seen.out()).or_default() += &line;
            continue;
        }
        let outline = grid.outline(now, place, 0, 1);
        let bit = seen.state.bit;
        *paths.entry(if bit == 0 { "t0" } else { "t1" }).or_default() += &outline;
        digits += &digit(grid, place, now, bit);
    }
    drawn(&paths) + &digits
}

fn digit(grid: &Grid, place: usize, round: u32, bit: u8) -> String {
    if !grid.has_digits() {
        return String::new();
    }
    let (x, y) = (
        grid.x(round) + grid.cell / 2,
        grid.y(place) + grid.row / 2 + 4,
    );
    text(
        &format!(r#"text class="d{bit}" x="{x}" y="{y}""#),
        &bit.to_string(),
    )
}

/// What a faulty one told, a stripe for each tone.
fn faulty(plan: &Plan, grid: &Grid, place: usize, at: usize) -> String {
    let mut paths: BTreeMap<&str, String> = BTreeMap::new();
    for round in &plan.run.rounds {
        let tones = tones(plan, round, at);
        for (part, tone) in tones.iter().enumerate() {
            let outline = grid.outline(round.round, place, part as u32, tones.len() as u32);
            *paths.entry(tone.class()).or_default() += &outline;
        }
    }
    drawn(&paths)
}

fn tones(plan: &Plan, round: &Round, at: usize) -> Vec<Tone> {
    let told: Vec<Tone> = plan
        .groups(round, at)
        .iter()
        .map(|g| Tone::of(&g.told))
        .collect();
    Tone::ALL
        .into_iter()
        .filter(|tone| told.contains(tone))
        .collect()
}

/// A frame around the phases in which this one is king.
fn reigns(plan: &Plan, grid: &Grid, place: usize, lane: &Lane) -> String {
    let last = plan.run.rounds.len() as u32;
    let mut out = String::new();
    for phase in 0..last / 3 {
        let kings = kings(plan.run, phase);
        let class = match kings.len() {
            1 => "reign",
            _ => "reign some",
        };
        if kings.contains_key(&lane.number) {
            let wide = grid.cell * 3.min(last - 2 - 3 * phase);
            out += &frame(class, grid, 3 + 3 * phase, place, wide);
        }
    }
    out
}

/// A frame around the cell in which a correct one has decided.
fn decision(plan: &Plan, grid: &Grid, place: usize, lane: &Lane) -> String {
    let Who::Correct(at) = lane.who else {
        return String::new();
    };
    let state = &plan.run.last().correct[at].state;
    match state.undecided() {
        true => String::new(),
        false => frame("sure", grid, state.round, place, grid.cell),
    }
}

/// A frame, with paper around it, so that it stands out from cells of any colour.
fn frame(class: &str, grid: &Grid, round: u32, place: usize, wide: u32) -> String {
    let (x, y) = (grid.x(round) + 1, grid.y(place) + 1);
    let (wide, tall) = (wide - 2, grid.row - 2);
    let path = format!("M{x} {y}h{wide}v{tall}h-{wide}z");
    format!(r#"<path class="halo" d="{path}"/><path class="{class}" d="{path}"/>"#)
}

fn drawn(paths: &BTreeMap<&str, String>) -> String {
    let mut out = String::new();
    for (class, path) in paths {
        let _ = write!(out, r#"<path class="{class}" d="{path}"/>"#);
    }
    out
}
