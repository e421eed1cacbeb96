//! The page for a browser, in one file that needs nothing else, and the picture of its
//! lanes for a document.
//!
//! The page has no script: the lines from a faulty one to those that it told something
//! are there, and the style shows them where the reader points.

mod correct;
mod details;
mod glance;
mod head;
mod lanes;
mod legend;
mod lines;
mod markup;
mod picture;
mod plan;
mod short;
mod told;
mod tone;

use crate::run::Run;
use markup::{element, text};
use plan::Plan;

/// The style of the lanes, on the page and in a picture, and that of the rest of the page.
const LANES: &str = include_str!("page/lanes.css");
const STYLE: &str = include_str!("page/style.css");

/// One HTML file: what happened, the lanes, the same in words, and the scenario's text.
pub fn page(run: &Run, scenario: &str) -> String {
    let plan = Plan::of(run, true);
    let head = [
        r#"<meta charset="utf-8"/>"#.into(),
        r#"<meta name="viewport" content="width=device-width, initial-scale=1"/>"#.into(),
        text("title", head::title(run)),
        element("style", &format!("\n{LANES}{STYLE}")),
    ];
    let shared = r#"svg class="shared" aria-hidden="true" width="0" height="0""#;
    let body = [
        head::head(run),
        element(shared, &lanes::shared(&plan)),
        glance::glance(&plan),
        legend::legend(&plan),
        lanes(&plan),
        details::details(&plan),
        text("h2", "The scenario"),
        text("p", "The drill makes this page again from this text."),
        text(r#"pre tabindex="0""#, scenario),
    ];
    let html = element("head", &head.concat()) + "\n" + &element("body", &body.join("\n"));
    format!("<!DOCTYPE html>\n{}\n", element(r#"html lang="en""#, &html))
}

fn lanes(plan: &Plan) -> String {
    let heading = text("h2", "Round by round");
    let skip = text(
        r##"a class="skip" href="#words""##,
        "Go on to the same in words",
    );
    let hints = legend::hints(plan);
    element("section", &(heading + &hints + &skip + &lanes::area(plan)))
}

/// The lanes alone, as an SVG file. For small lines: it is as large as they are.
pub fn picture(run: &Run) -> String {
    picture::picture(&Plan::of(run, false), LANES)
}
