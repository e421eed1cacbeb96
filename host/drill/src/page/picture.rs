//! The lanes alone, as a picture for a document: stages in rows, each row with the names.

use crate::page::head::title;
use crate::page::lanes::{corner, drawing, head, shared};
use crate::page::markup::{element, text};
use crate::page::plan::{Plan, Stage, HEAD};

/// A row takes as many stages as this leaves room for.
const WIDEST: u32 = 1000;
/// Between two rows.
const APART: u32 = 28;

pub fn picture(plan: &Plan, style: &str) -> String {
    let rows = rows(plan);
    let row_height = HEAD + plan.height;
    let width = rows
        .iter()
        .map(|row| plan.names + wide(row))
        .max()
        .unwrap_or(0);
    let height = rows.len() as u32 * (row_height + APART) - APART;
    let drawn = rows.iter().enumerate().map(|(place, row)| {
        let down = place as u32 * (row_height + APART);
        element(
            &format!(r#"g transform="translate(0 {down})""#),
            &drawn(plan, row),
        )
    });
    let inner = [
        text("title", title(plan.run)),
        element("style", style),
        shared(plan),
        r#"<rect class="paper" width="100%" height="100%"/>"#.into(),
        drawn.collect(),
    ];
    let open = format!(
        "svg xmlns=\"http://www.w3.org/2000/svg\" role=\"img\" class=\"drawing\" \
         width=\"{width}\" height=\"{height}\" viewBox=\"0 0 {width} {height}\""
    );
    element(&open, &inner.concat()) + "\n"
}

fn wide(row: &[Stage]) -> u32 {
    row.iter().map(Stage::width).sum()
}

fn rows<'a>(plan: &Plan<'a>) -> Vec<Vec<Stage<'a>>> {
    let mut rows: Vec<Vec<Stage>> = Vec::new();
    for stage in plan.stages() {
        match rows.last_mut() {
            Some(row) if plan.names + wide(row) + stage.width() <= WIDEST => row.push(stage),
            _ => rows.push(vec![stage]),
        }
    }
    rows
}

fn drawn(plan: &Plan, row: &[Stage]) -> String {
    let mut out = format!("{}<use href=\"#names\" y=\"{HEAD}\"/>", corner(plan));
    let mut x = plan.names;
    for stage in row {
        let clip = format!(
            r#"svg x="{x}" y="{HEAD}" width="{}" height="{}""#,
            stage.width(),
            plan.height
        );
        let tall = HEAD + plan.height;
        out += &format!(
            r#"<path class="rule" d="M{x} 0v{tall}M{x} {HEAD}h{}"/>"#,
            stage.width()
        );
        out += &element(
            &format!(r#"g transform="translate({x})""#),
            &head(plan, stage),
        );
        out += &element(&clip, &drawing(plan, stage));
        x += stage.width();
    }
    out
}
