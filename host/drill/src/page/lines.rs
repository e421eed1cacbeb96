//! The lines from a faulty controller's box to all whom it told something in that round.
//! They are hidden until a reader points at the box.

use std::fmt::Write;

use crate::facts::{Group, Told};
use crate::page::markup::{element, escaped};
use crate::page::plan::{part_top, Lane, Plan, ABOVE, BOX, GAP, MORE, MOST_PARTS, PART};
use crate::page::short;
use crate::page::tone::Tone;

/// The lines to all receivers, one trunk for each tone, and at their ends what was told.
pub fn lines(plan: &Plan, lane: &Lane, groups: &[Group], top: u32) -> String {
    let mut out = String::new();
    for tone in Tone::ALL {
        let ends = ends(plan, lane, groups, tone);
        if ends.is_empty() {
            continue;
        }
        let mut inner = from(tone, &starts(groups, top, tone), &ends);
        inner += &match plan.has_words() {
            true => with_words(tone, &ends),
            false => with_signs(tone, &ends),
        };
        out += &element(&format!(r#"g class="{}""#, tone.class()), &inner);
    }
    element(r#"g class="lines""#, &out)
}

/// Where the lines of a tone end, seen from the faulty one's lane, with what was told.
fn ends<'a>(plan: &Plan, lane: &Lane, groups: &'a [Group], of: Tone) -> Vec<(i32, &'a Told)> {
    let mut ends = Vec::new();
    for group in groups.iter().filter(|group| Tone::of(&group.told) == of) {
        let lanes = group.to.iter().filter_map(|&number| plan.lane(number));
        let y = |to: &Lane| to.top as i32 - lane.top as i32 + ABOVE as i32 - 4;
        ends.extend(lanes.map(|to| (y(to), &group.told)));
    }
    ends.sort_by_key(|(y, _)| *y);
    ends
}

/// Where the lines of a tone begin: at its parts, or at the line for those not drawn.
fn starts(groups: &[Group], top: u32, of: Tone) -> Vec<i32> {
    let places = groups
        .iter()
        .enumerate()
        .filter(|(_, group)| Tone::of(&group.told) == of);
    let start = |(place, _)| match place < MOST_PARTS {
        true => part_top(top, place) + PART / 2,
        false => part_top(top, MOST_PARTS) + MORE / 2 - GAP,
    };
    let mut starts: Vec<i32> = places.map(start).map(|y| y as i32).collect();
    starts.dedup();
    starts
}

/// From the parts to the trunk of their tone, and along it to the nearest end.
fn from(tone: Tone, starts: &[i32], ends: &[(i32, &Told)]) -> String {
    let mut path = String::new();
    for &start in starts {
        let near = ends
            .iter()
            .map(|(y, _)| *y)
            .min_by_key(|y| y.abs_diff(start));
        let _ = write!(
            path,
            "M0 {start}H-{}V{}",
            trunk(tone),
            near.unwrap_or(start)
        );
    }
    format!(r#"<path d="{path}"/>"#)
}

/// How far left of the boxes the lines of a tone go: each tone has its place in the gutter.
fn trunk(tone: Tone) -> i32 {
    let rank = Tone::ALL.iter().position(|other| *other == tone);
    4 + 3 * rank.unwrap_or(0) as i32
}

fn with_words(tone: Tone, ends: &[(i32, &Told)]) -> String {
    let trunk = trunk(tone);
    let mut path = format!("M-{trunk} {}", ends[0].0);
    let mut words = String::new();
    for (y, told) in ends {
        let _ = write!(path, "V{y}h{trunk}h-{trunk}");
        words += &end_words(*y, told);
    }
    format!(r#"<path d="{path}"/>{words}"#)
}

fn end_words(y: i32, told: &Told) -> String {
    // They are bold, and so a little wider.
    let words = short::words(told, 12, BOX - 4);
    let wide = short::width(&words, 12) + 12;
    format!(
        r#"<rect x="-1" y="{}" width="{wide}" height="16" rx="8"/><text x="5" y="{}">{}</text>"#,
        y - 8,
        y + 4,
        escaped(&words)
    )
}

/// The trunk alone: the style puts a marker at each of its points.
fn with_signs(tone: Tone, ends: &[(i32, &Told)]) -> String {
    let mut at = ends[0].0;
    let mut path = format!("M-{} {at}", trunk(tone));
    for (y, _) in ends {
        let _ = write!(path, "v{}", y - at);
        at = *y;
    }
    format!(r#"<path class="marked" d="{path}"/>"#)
}

/// The markers for signs: a branch to the box, and the sign at its end.
pub fn markers() -> String {
    let marker = |tone: Tone| {
        let (class, trunk) = (tone.class(), trunk(tone));
        format!(
            "<marker id=\"end-{class}\" class=\"{class}\" markerWidth=\"40\" \
             markerHeight=\"20\" refX=\"0\" refY=\"10\" markerUnits=\"userSpaceOnUse\">\
             <path d=\"M0 10h{trunk}\"/><rect x=\"{trunk}\" y=\"2\" width=\"16\" height=\"16\" \
             rx=\"8\"/><text x=\"{}\" y=\"14\">{}</text></marker>",
            trunk + 8,
            tone.sign()
        )
    };
    Tone::ALL.into_iter().map(marker).collect()
}
