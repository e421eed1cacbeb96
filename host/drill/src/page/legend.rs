//! What the signs of the lanes mean, as far as they occur, and what is done in the rounds.

use crate::facts::kings;
use crate::page::markup::{element, text};
use crate::page::plan::Plan;
use crate::page::tone::Tone;
use crate::run::Seen;

/// A sign: its drawing, and what it means.
type Sign = (&'static str, &'static str);

const BITS: [Sign; 2] = [
    (
        concat!(
            r#"<g class="b0"><rect x="1" y="3" width="96" height="30" rx="13"/>"#,
            r#"<text x="34" y="22">bit 0</text></g>"#
        ),
        "A correct one whose own bit is 0: blue, with round corners. In the box is what it sent.",
    ),
    (
        concat!(
            r#"<g class="b1"><rect x="1" y="3" width="96" height="30" rx="3"/>"#,
            r#"<text x="34" y="22">bit 1</text></g>"#
        ),
        "A correct one whose own bit is 1: orange, with square corners. “bit 0→1” is a bit that \
         has just changed.",
    ),
];
const KING: Sign = (
    concat!(
        r##"<g class="crown" transform="translate(32 2)"><use href="#crown" x="5"/>"##,
        r#"<text class="m" x="16" y="29">king</text></g>"#
    ),
    "The king of the phase. Its word shows in the first round of the next phase.",
);
const KING_OF_SOME: Sign = (
    concat!(
        r##"<g class="crown" transform="translate(32 2)"><use href="#crown" x="5"/>"##,
        r#"<text class="m" x="16" y="29">by 4 6</text></g>"#
    ),
    "King for these only: they do not all name the same one.",
);
const DECIDED: Sign = (
    concat!(
        r#"<g class="b0 end"><rect x="2" y="3" width="96" height="30" rx="13"/>"#,
        r##"<use class="tick" href="#tick" x="12" y="12"/>"##,
        r#"<text x="29" y="22">decided</text></g>"#
    ),
    "Decided, for good. From then on it is quiet: it sends no more, and counts as saying what its \
     receiver says.",
);
const STUCK: Sign = (
    r#"<path class="stuck" d="M1 18h96"/>"#,
    "Stuck: it refused the tray of a round, and cannot go on.",
);
const FAULTY: Sign = (
    concat!(
        r#"<rect class="lying" x="1" y="3" width="96" height="30"/>"#,
        r#"<text class="m lie" x="30" y="22">faulty</text>"#
    ),
    "The lane of a faulty one. In the boxes is what it told others, and whom.",
);
const APART: Sign = (
    concat!(
        r#"<g class="t0"><rect x="1" y="3" width="42" height="30" rx="7"/></g>"#,
        r#"<g class="t1"><rect x="47" y="3" width="42" height="30" rx="7"/></g>"#,
        r##"<g class="told"><use href="#apart" x="89" y="10"/></g>"##
    ),
    "It told different things to different ones.",
);
const VOID: Sign = (
    r#"<g class="tv"><rect x="1" y="3" width="96" height="30" rx="7"/></g>"#,
    "What it sent cannot be read, or contradicts itself, and counts for nothing.",
);
const SILENT: Sign = (
    r#"<g class="ts"><rect x="1" y="3" width="96" height="30" rx="7"/></g>"#,
    "Silent: it sent nothing. A receiver that has heard it before counts it as saying what the \
     receiver says itself.",
);
const REFUSED: Sign = (
    r#"<text class="m no" x="22" y="22">refused 4</text>"#,
    "Junk from the cable. It was refused, for the reason with this number, and changed nothing.",
);

const KINDS: [(&str, &str); 5] = [
    ("init", "Each says that it is there."),
    ("roster", "Each lists those who said so."),
    ("value", "Each tells its own bit."),
    (
        "propose",
        "Each proposes the bit that two thirds told it; none, if there is no such bit. Whoever \
         hears a third propose one bit, and less than a third the other, makes it its own.",
    ),
    (
        "turn",
        "The king tells its opinion. Whoever has not heard two thirds propose its own bit takes \
         the king's; nobody else's opinion counts. All list the numbers that have newly come up \
         as candidates for king; mostly there are none.",
    ),
];

pub fn legend(plan: &Plan) -> String {
    let signs: String = signs(plan).into_iter().map(sign).collect();
    let kind = |(name, words): (&str, &str)| text("dt", name) + &text("dd", words);
    let kinds: String = KINDS.into_iter().map(kind).collect();
    let parts = [
        text("h2", "How to read the lanes"),
        element(r#"ul class="signs""#, &signs),
        element(r#"dl class="kinds""#, &kinds),
    ];
    element(r#"section class="legend""#, &parts.concat())
}

fn sign((drawing, words): Sign) -> String {
    let svg = r#"svg aria-hidden="true" width="100" height="36" viewBox="0 0 100 36""#;
    element("li", &(element(svg, drawing) + &text("span", words)))
}

/// The signs that occur.
fn signs(plan: &Plan) -> Vec<Sign> {
    let seen = |is: fn(&Seen) -> bool| {
        let mut all = plan.run.rounds.iter().flat_map(|round| &round.correct);
        all.any(is)
    };
    let told = |tone: Tone| {
        let mut all = plan.told.iter().flatten().flatten();
        all.any(|group| Tone::of(&group.told) == tone)
    };
    let mut phases = 0..plan.run.rounds.len() as u32 / 3;
    let optional = [
        (
            phases.any(|phase| kings(plan.run, phase).len() > 1),
            KING_OF_SOME,
        ),
        (seen(|seen| seen.refused.is_some()), STUCK),
        (!plan.run.scenario.faulty.is_empty(), FAULTY),
        (
            plan.told.iter().flatten().any(|groups| groups.len() > 1),
            APART,
        ),
        (told(Tone::Void), VOID),
        (told(Tone::Silent), SILENT),
        (seen(|seen| !seen.junk.is_empty()), REFUSED),
    ];
    let occurring = optional
        .into_iter()
        .filter(|(occurs, _)| *occurs)
        .map(|(_, sign)| sign);
    BITS.into_iter()
        .chain([KING, DECIDED])
        .chain(occurring)
        .collect()
}

/// How to see more of the lanes.
pub fn hints(plan: &Plan) -> String {
    let mut out = format!(
        "{} rounds: the lanes scroll sideways.",
        plan.run.rounds.len()
    );
    if !plan.run.scenario.faulty.is_empty() {
        out += " Point at a box of a faulty lane, or go to it with the Tab key: lines show what \
                each of its neighbours was told in that round.";
    }
    if !plan.run.scenario.faulty.is_empty() && !plan.has_words() {
        out += &ends();
    }
    text(r#"p class="hint screen""#, &out)
}

/// What the signs at the ends of the lines mean.
fn ends() -> String {
    let meaning = |tone: &Tone| match tone {
        Tone::Zero => "told 0",
        Tone::One => "told 1",
        Tone::Plain => "told no bit",
        Tone::Void => "told what counts for nothing",
        Tone::Silent => "told nothing at all",
    };
    let all: Vec<String> = Tone::ALL
        .iter()
        .map(|tone| format!("{} {}", tone.sign(), meaning(tone)))
        .collect();
    format!(" At the ends of the lines: {}.", all.join(", "))
}
