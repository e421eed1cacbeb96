//! The lane of a faulty controller: what it told whom.

use std::fmt::Write;

use crate::facts::Group;
use crate::page::lines::lines;
use crate::page::markup::{element, text};
use crate::page::plan::{part_top, parts_height, Lane, Plan, Stage, BOX, GAP, MORE, MOST_PARTS};
use crate::page::short;
use crate::page::tone::Tone;
use crate::run::Round;
use crate::words::numbers;

/// The room for text in a part, and what the mark in the corner of the first one takes.
const ROOM: u32 = BOX - 14;
const MARK: u32 = 8;
/// The most groups of a tooltip.
const MOST_SPOKEN: usize = 12;
/// The same on a long line, where a page has thousands of them.
const FEWER_SPOKEN: usize = 4;

pub fn cells(plan: &Plan, lane: &Lane, stage: &Stage, place: usize) -> String {
    let columns = stage.rounds.iter().enumerate();
    columns
        .map(|(column, round)| cell(plan, lane, place, round, stage.column(column)))
        .collect()
}

/// Nothing, if nobody gets a tray any more.
fn cell(plan: &Plan, lane: &Lane, place: usize, round: &Round, x: u32) -> String {
    let groups = plan.groups(round, place);
    if groups.is_empty() {
        return String::new();
    }
    let tall = parts_height(groups);
    let top = (lane.height - tall) / 2;
    let live = match plan.live {
        true => format!(
            r#" tabindex="0" role="img" aria-label="{}, faulty, in round {}""#,
            lane.number, round.round
        ),
        false => String::new(),
    };
    let open = format!(r#"g class="told" transform="translate({x})"{live}"#);
    let mut inner = text("title", &spoken(plan, lane.number, round.round, groups));
    let _ = write!(
        inner,
        r#"<rect class="hit" y="{top}" width="{BOX}" height="{tall}" rx="7"/>"#
    );
    inner += &parts(plan, groups, top);
    if groups.len() > 1 {
        let _ = write!(inner, r##"<use href="#apart" x="{BOX}" y="{}"/>"##, top + 4);
    }
    if plan.live {
        inner += &lines(plan, lane, groups, top);
    }
    element(&open, &inner)
}

/// What each group was told, one below the other.
fn parts(plan: &Plan, groups: &[Group], top: u32) -> String {
    let all = plan.run.scenario.correct.len();
    let mut out = String::new();
    for (place, group) in groups.iter().take(MOST_PARTS).enumerate() {
        let y = part_top(top, place);
        let marked = groups.len() > 1 && place == 0;
        let room = ROOM - if marked { MARK } else { 0 };
        let inner = format!(
            r##"<use href="#part" y="{y}"/>{}{}"##,
            text(
                &format!(r#"text x="8" y="{}""#, y + 15),
                &short::words(&group.told, 12, room)
            ),
            text(
                &format!(r#"text class="m" x="8" y="{}""#, y + 28),
                &receivers(group, all)
            ),
        );
        out += &element(
            &format!(r#"g class="{}""#, Tone::of(&group.told).class()),
            &inner,
        );
    }
    if groups.len() > MOST_PARTS {
        let y = part_top(top, MOST_PARTS) + MORE - GAP - 4;
        let more = format!("+{} more", groups.len() - MOST_PARTS);
        out += &text(&format!(r#"text class="m" x="8" y="{y}""#), &more);
    }
    out
}

fn receivers(group: &Group, all: usize) -> String {
    let count = group.to.len();
    match count == all {
        true => "to all".into(),
        false => short::fitting(
            [
                format!("to {}", numbers(&group.to)),
                format!("to {count} of {all}"),
            ],
            11,
            BOX - 16,
        ),
    }
}

/// What it told whom, in one sentence.
fn spoken(plan: &Plan, number: u32, round: u32, groups: &[Group]) -> String {
    let most = match plan.has_words() {
        true => MOST_SPOKEN,
        false => FEWER_SPOKEN,
    };
    let part = |group: &Group| {
        let words = short::words(&group.told, 12, 4 * BOX);
        format!("{words} to {}", numbers(&group.to))
    };
    let parts: Vec<String> = groups.iter().take(most).map(part).collect();
    let mut out = format!("{number} in round {round} told {}", parts.join("; "));
    if groups.len() > most {
        let _ = write!(out, "; and {} more, in the tables", groups.len() - most);
    }
    out
}
