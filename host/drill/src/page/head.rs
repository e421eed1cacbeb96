//! The head of the page: the title, how it ended, who was on the line, what happened.

use crate::page::markup::{element, escaped, text};
use crate::run::{Rule, Run};
use crate::story::{members, story};
use crate::verdict::{verdict, warning};

/// The remarks in front of the scenario that say something.
fn remarks<'a>(run: &'a Run) -> impl Iterator<Item = &'a str> {
    let lines = run.scenario.heading.iter().map(String::as_str);
    lines.filter(|line| !line.is_empty())
}

pub fn title<'a>(run: &'a Run) -> &'a str {
    remarks(run).next().unwrap_or("A drill")
}

/// What is going on, for who has never seen a line settle anything.
const ABOUT: &str = "They must all settle the same bit, 0 or 1: by which of two plans the next \
                     wave of parcels runs. They talk in rounds, and three rounds make a phase. \
                     First each tells its bit, then each proposes the bit that two thirds told it, \
                     and then one of them, the king of the phase, tells its opinion: whoever has \
                     not heard two thirds propose its own bit takes the king's. That shows in the \
                     round after. Nobody knows who is faulty, so the turn to be king goes round.";

/// The same, and what is promised.
fn about(run: &Run) -> String {
    let promise = match run.rule {
        Rule::Engine => format!(
            "Where fewer than a third are faulty all decide alike, by round {} at the latest: \
             three for each controller, and three more.",
            run.scenario.limit()
        ),
        Rule::Printed => "By the drill's own rule all decide alike where fewer than a third are \
                          faulty. By the printed rule they need not."
            .into(),
    };
    text("p", &format!("{ABOUT} {promise}"))
}

pub fn head(run: &Run) -> String {
    let notes: String = remarks(run).skip(1).map(note).collect();
    let line = members(run).iter().map(|line| text("p", line)).collect();
    let story = story(run);
    let sentences: String = story.iter().map(|line| text("li", line)).collect();
    // Many faulty ones make many sentences, which are set in columns.
    let class = if story.len() > 10 {
        "story many"
    } else {
        "story"
    };
    let parts = [
        text("h1", title(run)),
        notes,
        banner(run),
        line,
        about(run),
        text("h2", "What happened"),
        element(&format!(r#"ul class="{class}""#), &sentences),
    ];
    element("header", &parts.concat())
}

/// A remark; its first word stands out if it is a call to notice something.
fn note(line: &str) -> String {
    let inner = match line.strip_prefix("Notice:") {
        Some(rest) => format!("<b>Notice:</b>{}", escaped(rest)),
        None => escaped(line),
    };
    element(r#"p class="note""#, &inner)
}

/// How it ended, and the warning where nothing was promised.
fn banner(run: &Run) -> String {
    let verdict = verdict(run);
    let (class, first, rest) = match verdict.text.split_once(": ") {
        Some((first, rest)) if !verdict.agreed => ("bad", first, rest),
        _ => ("good", "Agreed", verdict.text.as_str()),
    };
    let mut out = sign(class, first, rest);
    if let Some(warning) = warning(run) {
        let (first, rest) = warning.split_once(": ").unwrap_or(("", &warning));
        out += &sign("warn", first, rest);
    }
    out
}

fn sign(class: &str, first: &str, rest: &str) -> String {
    let shape = match class {
        "good" => r#"<circle cx="12" cy="12" r="11"/><path d="M6 12.5l4 4 8-9"/>"#,
        "bad" => r#"<circle cx="12" cy="12" r="11"/><path d="M7.5 7.5l9 9m0-9l-9 9"/>"#,
        _ => r#"<path class="edge" d="M12 1l11 21H1z"/><path d="M12 9v6m0 3v1"/>"#,
    };
    let icon = r#"svg class="icon" aria-hidden="true" width="24" height="24" viewBox="0 0 24 24""#;
    let icon = element(icon, shape);
    let words = format!("<p><b>{}:</b> {}</p>", escaped(first), escaped(rest));
    element(&format!(r#"div class="banner {class}""#), &(icon + &words))
}
