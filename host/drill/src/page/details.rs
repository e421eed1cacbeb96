//! The same in words: a table for each stage, with a row for each controller.

use std::fmt::Write;

use crate::facts::Told;
use crate::page::correct::bit_before;
use crate::page::markup::{element, escaped, text};
use crate::page::plan::{Lane, Plan, Stage, Who};
use crate::run::{Round, Seen};
use crate::words::{codes, kind, numbers};

/// Tables of longer lines are closed at first.
const MOST_OPEN: usize = 8;

pub fn details(plan: &Plan) -> String {
    let tables: String = plan
        .stages()
        .iter()
        .map(|stage| folded(plan, stage))
        .collect();
    let heading = text(r#"h2 id="words""#, "The same in words");
    element("section", &(heading + &tables))
}

fn folded(plan: &Plan, stage: &Stage) -> String {
    let open = match plan.lanes.len() > MOST_OPEN {
        true => "details",
        false => r#"details open="""#,
    };
    let name = stage.spoken();
    let scroll =
        format!(r#"div class="scroll" role="region" aria-label="{name}, in words" tabindex="0""#);
    element(
        open,
        &(text("summary", &name) + &element(&scroll, &table(plan, stage))),
    )
}

fn table(plan: &Plan, stage: &Stage) -> String {
    let caption = text(
        "caption",
        &format!("{}: who sent and held what", stage.spoken()),
    );
    let mut heads = text(r#"th scope="col""#, "Controller");
    for round in stage.rounds {
        let name = format!("Round {}, {}", round.round, kind(round.round));
        heads += &text(r#"th scope="col""#, &name);
    }
    let rows: String = plan
        .lanes
        .iter()
        .map(|lane| row(plan, lane, stage))
        .collect();
    let head = element("thead", &element("tr", &heads));
    element("table", &(caption + &head + &element("tbody", &rows)))
}

fn row(plan: &Plan, lane: &Lane, stage: &Stage) -> String {
    let (name, cell): (String, &dyn Fn(&Round) -> String) = match lane.who {
        Who::Correct(place) => (lane.number.to_string(), &move |round| {
            correct(plan, place, round)
        }),
        Who::Faulty(place) => (format!("{}, faulty", lane.number), &move |round| {
            faulty(plan, place, round)
        }),
    };
    let mut cells = text(r#"th scope="row""#, &name);
    for round in stage.rounds {
        cells += &element("td", &cell(round));
    }
    element("tr", &cells)
}

fn correct(plan: &Plan, place: usize, round: &Round) -> String {
    let seen = &round.correct[place];
    let state = &seen.state;
    if seen.is_out(round.round) {
        return seen.out().to_string() + &refused(seen);
    }
    let mut out = match state.undecided() {
        true => text("b", &Told::sent(&seen.sent, round.round).to_string()),
        false => text("b", &format!("decides {}", state.decision)),
    };
    let _ = write!(out, "<br/>bit {}", state.bit);
    if let Some(before) = bit_before(plan, place, round.round) {
        let _ = write!(out, " (was {before})");
    }
    if state.king != 0 {
        let _ = write!(out, ", king {}", state.king);
    }
    let before = plan.run.rounds.get((round.round as usize).wrapping_sub(2));
    let before = before.map(|round| &round.correct[place].state);
    out += &list("heard", &state.heard, before.map(|state| &state.heard));
    out += &list(
        "candidates",
        &state.candidates,
        before.map(|state| &state.candidates),
    );
    out + &refused(seen)
}

/// Junk that it refused, and the tray.
fn refused(seen: &Seen) -> String {
    let mut out = String::new();
    if !seen.junk.is_empty() {
        let _ = write!(out, "<br/>refused junk under {}", codes(&seen.junk));
    }
    if let Some(refusal) = seen.refused {
        let _ = write!(out, "<br/>refused its tray under {refusal}: stuck");
    }
    out
}

/// How many it has heard, say; with their numbers where they are others than before.
fn list(name: &str, now: &[u32], before: Option<&Vec<u32>>) -> String {
    let same = now.is_empty() || before.is_some_and(|before| before == now);
    match same {
        true => format!(", {name} {}", now.len()),
        false => format!(", {name} {}: {}", now.len(), numbers(now)),
    }
}

fn faulty(plan: &Plan, place: usize, round: &Round) -> String {
    let groups = plan.groups(round, place);
    let told: Vec<String> = groups
        .iter()
        .map(|group| {
            format!(
                "{} to {}",
                escaped(&group.told.to_string()),
                numbers(&group.to)
            )
        })
        .collect();
    match groups.len() {
        0 => "nobody listens any more".into(),
        1 => told.concat(),
        _ => format!("Different things:<br/>{}", told.join("<br/>")),
    }
}
