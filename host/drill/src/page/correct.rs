//! The lane of a correct controller: its own bit and what it sent, up to its decision.

use std::fmt::Write;

use crate::facts::Told;
use crate::page::markup::{element, text};
use crate::page::plan::{Lane, Plan, Stage, BOX, GUTTER, PITCH};
use crate::page::short;
use crate::run::{Round, Seen};
use crate::words::codes;

/// The room for text in a box.
const ROOM: u32 = BOX - 14;

pub fn cells(plan: &Plan, lane: &Lane, stage: &Stage, place: usize) -> String {
    let mut out = String::new();
    for (column, round) in stage.rounds.iter().enumerate() {
        let (seen, x) = (&round.correct[place], stage.column(column));
        out += &match seen.is_out(round.round) {
            true => out_of_it(lane, seen, x),
            false => cell(plan, lane, place, round, x),
        };
    }
    out
}

/// A thin line; a broken one if it is stuck. Junk is refused all the same.
fn out_of_it(lane: &Lane, seen: &Seen, x: u32) -> String {
    let (left, middle) = (x - GUTTER, lane.middle());
    let class = seen.out();
    let line = format!(r#"<path class="{class}" d="M{left} {middle}h{PITCH}"/>"#);
    match seen.junk.is_empty() {
        true => line,
        false => line + &element(&format!(r#"g transform="translate({x})""#), &tag(seen)),
    }
}

fn cell(plan: &Plan, lane: &Lane, place: usize, round: &Round, x: u32) -> String {
    let seen = &round.correct[place];
    let before = bit_before(plan, place, round.round);
    let (bit, decided) = (seen.state.bit, !seen.state.undecided());
    let mut out = match decided {
        true => format!(
            r#"<g class="b{bit} end" data-decided="{bit}" data-round="{}""#,
            round.round
        ),
        false => format!(r#"<g class="b{bit}""#),
    };
    let _ = write!(out, r#" transform="translate({x})">"#);
    out += &text("title", &spoken(lane.number, seen, round.round, before));
    let _ = write!(out, r##"<use href="#box{bit}"/>"##);
    out += &match decided {
        true => format!(
            "<use class=\"tick\" href=\"#tick\" x=\"8\" y=\"11\"/>{}",
            text(r#"text x="24" y="22""#, &format!("decided {bit}"))
        ),
        false => text(
            r#"text x="8" y="22""#,
            &short::words(&Told::sent(&seen.sent, round.round), 12, ROOM),
        ),
    };
    out += &match before {
        Some(before) => text(
            r#"text class="m turned" x="8" y="38""#,
            &format!("bit {before}→{bit}"),
        ),
        None => text(r#"text class="m" x="8" y="38""#, &format!("bit {bit}")),
    };
    out + &tag(seen) + "</g>"
}

/// What it refused, below the box.
fn tag(seen: &Seen) -> String {
    let words = match (seen.refused, seen.junk.is_empty()) {
        (Some(refusal), _) => format!("stuck, refused {refusal}"),
        (None, false) => short::fitting(
            [
                format!("refused {}", codes(&seen.junk)),
                format!("refused {} times", seen.junk.len()),
            ],
            11,
            BOX,
        ),
        (None, true) => return String::new(),
    };
    text(r#"text class="m no" x="2" y="59""#, &words)
}

/// Its bit in the round before, if that was another one.
pub fn bit_before(plan: &Plan, place: usize, round: u32) -> Option<u8> {
    let now = plan.run.rounds[round as usize - 1].correct[place].state.bit;
    let before = plan.run.rounds.get((round as usize).checked_sub(2)?)?;
    let before = before.correct[place].state.bit;
    (before != now).then_some(before)
}

fn spoken(number: u32, seen: &Seen, round: u32, before: Option<u8>) -> String {
    let state = &seen.state;
    let mut out = match state.undecided() {
        true => format!(
            "{number} in round {round} sends {}; bit {}",
            Told::sent(&seen.sent, round),
            state.bit
        ),
        false => format!("{number} in round {round} decides {}", state.decision),
    };
    if let Some(before) = before {
        let _ = write!(out, ", before {before}");
    }
    if state.king != 0 {
        let _ = write!(out, "; king {}", state.king);
    }
    if !seen.junk.is_empty() {
        let _ = write!(out, "; junk refused under {}", codes(&seen.junk));
    }
    if let Some(refusal) = seen.refused {
        let _ = write!(out, "; refuses its tray under {refusal} and is stuck");
    }
    out
}
