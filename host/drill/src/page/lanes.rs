//! The lanes: a drawing for each stage, and what all stages share.

use std::fmt::Write;

use crate::facts::kings;
use crate::page::markup::{element, text};
use crate::page::plan::{Lane, Plan, Stage, Who, ABOVE, BOX, EDGE, HEAD, PART, TALL};
use crate::page::{correct, lines, short, told};
use crate::words::{kind, named, numbers};

/// What all drawings use: boxes, signs, the ground with the faulty lanes marked, the names.
pub fn shared(plan: &Plan) -> String {
    let ground = element(r#"g id="ground""#, &ground(plan));
    let names: String = plan.lanes.iter().map(|lane| name(plan, lane)).collect();
    let names = element(r#"g id="names""#, &names);
    let markers = match plan.live && !plan.has_words() {
        true => lines::markers(),
        false => String::new(),
    };
    element(
        "defs",
        &format!("{}{SIGNS}{markers}{ground}{names}", boxes()),
    )
}

/// The boxes of both bits, whose corners say the bit as well as the colour, and the part
/// of a faulty one's box.
fn boxes() -> String {
    let shape = |id: &str, y: u32, height: u32, corner: u32| {
        format!(r#"<rect id="{id}" y="{y}" width="{BOX}" height="{height}" rx="{corner}"/>"#)
    };
    shape("box0", ABOVE, TALL, 13) + &shape("box1", ABOVE, TALL, 3) + &shape("part", 0, PART, 7)
}

const SIGNS: &str = concat!(
    r#"<pattern id="hatch" width="7" height="7" patternUnits="userSpaceOnUse" "#,
    r#"patternTransform="rotate(45)"><rect class="paper" width="7" height="7"/>"#,
    r#"<path class="hatched" d="M0 0v7"/></pattern>"#,
    r#"<path id="crown" d="M1 15L0 3l6 5 5-8 5 8 6-5-1 12z"/>"#,
    r#"<path id="tick" d="M1 7l4 4 7-9"/>"#,
    r#"<g id="apart"><circle r="9"/><path d="M-4-2h8M-4 2h8M-2 5L2-5"/></g>"#,
);

/// A line below each lane, and a ground of its own for faulty ones. Wider than any stage.
fn ground(plan: &Plan) -> String {
    let mut out = String::new();
    for lane in &plan.lanes {
        let bottom = lane.top + lane.height;
        if let Who::Faulty(_) = lane.who {
            // That of the first lane reaches up to the heading.
            let top = if lane.top == EDGE { 0 } else { lane.top };
            let height = bottom - top;
            let _ = write!(
                out,
                r#"<rect class="lying" y="{top}" width="600" height="{height}"/>"#
            );
        }
        let _ = write!(out, r#"<path class="rule" d="M0 {bottom}h600"/>"#);
    }
    out
}

fn name(plan: &Plan, lane: &Lane) -> String {
    let middle = lane.top + lane.middle();
    let (class, words) = match lane.who {
        Who::Correct(_) => {
            let bit = plan.run.scenario.correct[&lane.number];
            ("m soft", format!("brought {bit} in"))
        }
        Who::Faulty(_) => ("m lie", "faulty".into()),
    };
    text(
        &format!(r#"text class="number" x="12" y="{}""#, middle - 2),
        &lane.number.to_string(),
    ) + &text(
        &format!(r#"text class="{class}" x="12" y="{}""#, middle + 14),
        &words,
    )
}

/// The heading of a stage: its name, its king, and its rounds.
pub fn head(plan: &Plan, stage: &Stage) -> String {
    let mut out = text(r#"text class="stage" x="12" y="21""#, &stage.name());
    if let Some(phase) = stage.phase {
        let room = stage.width() - 96;
        let words = kings_words(plan, phase, room);
        out += &text(r#"text class="soft" x="84" y="21""#, &words);
    }
    for (column, round) in stage.rounds.iter().enumerate() {
        let inner = format!(
            "<tspan class=\"number\">{}</tspan> {}",
            round.round,
            kind(round.round)
        );
        let open = format!(
            r#"text class="soft" data-round="{}" x="{}" y="43""#,
            round.round,
            stage.column(column)
        );
        out += &element(&open, &inner);
    }
    out
}

fn kings_words(plan: &Plan, phase: u32, room: u32) -> String {
    let kings: Vec<u32> = kings(plan.run, phase).into_keys().collect();
    match kings.len() {
        0 => String::new(),
        1 => format!("king {}", kings[0]),
        many => {
            let choices = [format!("kings {}", named(&kings)), format!("{many} kings")];
            short::fitting(choices, 12, room)
        }
    }
}

/// What stands above the names.
pub fn corner(plan: &Plan) -> String {
    let x = plan.names - 8;
    text(
        &format!(r#"text class="soft corner" x="{x}" y="43""#),
        "round",
    )
}

/// The lanes of a stage, below its heading. Those of faulty ones come last, so that their
/// lines are above all boxes.
pub fn drawing(plan: &Plan, stage: &Stage) -> String {
    let mut out = String::from("<use href=\"#ground\"/>");
    let is_faulty = |lane: &&Lane| matches!(lane.who, Who::Faulty(_));
    let (faulty, correct): (Vec<&Lane>, Vec<&Lane>) = plan.lanes.iter().partition(is_faulty);
    for lane in correct.into_iter().chain(faulty) {
        let (hidden, cells) = match lane.who {
            // The tables say the same in words; only what can be pointed at is read out.
            Who::Correct(place) => (
                r#" aria-hidden="true""#,
                correct::cells(plan, lane, stage, place),
            ),
            Who::Faulty(place) => ("", told::cells(plan, lane, stage, place)),
        };
        let open = format!(
            r#"g class="lane" data-lane="{}" transform="translate(0 {})"{hidden}"#,
            lane.number, lane.top
        );
        out += &element(&open, &(crown(plan, lane, stage) + &cells));
    }
    out
}

/// A crown, where somebody names this one king of the phase.
fn crown(plan: &Plan, lane: &Lane, stage: &Stage) -> String {
    let Some(phase) = stage.phase else {
        return String::new();
    };
    let kings = kings(plan.run, phase);
    let Some(by) = kings.get(&lane.number) else {
        return String::new();
    };
    let all: usize = kings.values().map(Vec::len).sum();
    let open = format!(
        r#"g class="crown" data-king="{}" data-phase="{phase}" transform="translate(10 {})""#,
        lane.number,
        lane.middle() - 18
    );
    let title = match by.len() == all {
        true => format!("{} is king of phase {phase}", lane.number),
        false => format!("{} is king of phase {phase} for {}", lane.number, named(by)),
    };
    element(
        &open,
        &(text("title", &title) + "<use href=\"#crown\" x=\"5\"/>" + &by_whom(by, all)),
    )
}

/// Below a crown: by whom, where not by all.
fn by_whom(by: &[u32], all: usize) -> String {
    let line = |y: u32, words: &str| text(&format!(r#"text class="m" x="16" y="{y}""#), words);
    let these = format!("by {}", numbers(by));
    match by.len() == all {
        true => line(29, "king"),
        false if short::width(&these, 11) <= 46 => line(29, &these),
        false => line(28, &format!("by {}", by.len())) + &line(40, &format!("of {all}")),
    }
}

/// A drawing on the page; `class` is for style.css.
pub fn svg(class: &str, label: Option<&str>, width: u32, height: u32, inner: &str) -> String {
    let role = match label {
        Some(label) => format!(r#"role="group" aria-label="{label}""#),
        None => r#"aria-hidden="true""#.into(),
    };
    let size = format!(r#"width="{width}" height="{height}" viewBox="0 0 {width} {height}""#);
    let open = format!(r#"svg class="{class}" {role} {size}"#);
    element(&open, inner)
}

/// The area of the page that scrolls: the names, and the stages side by side.
pub fn area(plan: &Plan) -> String {
    let mut row = element(
        r#"div class="names""#,
        &(svg("top", None, plan.names, HEAD, &corner(plan))
            + &svg(
                "side",
                None,
                plan.names,
                plan.height,
                "<use href=\"#names\"/>",
            )),
    );
    for stage in plan.stages() {
        let (width, height) = (stage.width(), plan.height);
        // The names again, for print only.
        let below = format!("{}<use href=\"#names\" y=\"{HEAD}\"/>", corner(plan));
        let again = svg("again", None, plan.names, HEAD + height, &below);
        let head = svg("top", None, width, HEAD, &head(plan, &stage));
        let drawing = svg(
            "drawing",
            Some(&stage.spoken()),
            width,
            height,
            &drawing(plan, &stage),
        );
        let column = element("div", &(head + &drawing));
        row += &element(r#"div class="stage""#, &(again + &column));
    }
    let open = r#"div class="lanes" role="region" aria-label="The lanes" tabindex="0""#;
    element(open, &element(r#"div class="row""#, &row))
}
