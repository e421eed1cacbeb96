//! The table for a terminal: a row for each round, a column for each controller.

mod cells;
mod layout;

use crate::run::Run;
use crate::story::{members, named_kings, story};
use crate::verdict::{verdict, warning};
use crate::words;
use cells::{cell, head};
use layout::{painted, wrapped, Line, Style};

/// The column of the rounds, the gap between columns, and the least and most of a column.
const ROUNDS: usize = 8;
const GAP: usize = 2;
const LEAST: usize = 12;
const MOST: usize = 28;

const LEGEND: &str = "A cell has what was sent, then the own bit, the king, and how many are \
                      heard/candidates. ≠ is where a faulty one told them different things.";

/// All that the drill prints of a run.
pub fn shown(run: &Run, width: usize, colour: bool) -> String {
    let mut out = before(run, width, colour);
    let per_block = ((width.saturating_sub(ROUNDS)) / (LEAST + GAP)).max(1);
    let all: Vec<u32> = run.scenario.numbers().into_iter().collect();
    for block in all.chunks(per_block) {
        out.push('\n');
        out.push_str(&table(run, block, width, colour));
    }
    out.push('\n');
    out.push_str(&ending(run, width, colour));
    out
}

/// What stands before the table.
fn before(run: &Run, width: usize, colour: bool) -> String {
    let mut lines: Vec<Line> = Vec::new();
    for remark in &run.scenario.heading {
        lines.push(Line::of(remark, Style::Plain));
    }
    if !run.scenario.heading.is_empty() {
        lines.push(Line::default());
    }
    let members = members(run).into_iter();
    lines.extend(members.map(|line| Line::of(&line, Style::Plain)));
    lines.extend(warning(run).map(|warning| Line::of(&warning, Style::Bad)));
    lines.push(Line::of(LEGEND, Style::Faint));
    paragraphs(&lines, width, colour)
}

/// Lines as wide as the terminal.
fn paragraphs(lines: &[Line], width: usize, colour: bool) -> String {
    let wrapped = wrapped(lines, width, colour);
    wrapped
        .iter()
        .map(|line| format!("{}\n", line.trim_end()))
        .collect()
}

/// Some columns of the table.
fn table(run: &Run, block: &[u32], width: usize, colour: bool) -> String {
    let column = (width.saturating_sub(ROUNDS) / block.len())
        .saturating_sub(GAP)
        .clamp(LEAST, MOST);
    let row = |first: Vec<Line>, cells: Vec<Vec<Line>>| {
        let first = wrapped(&first, ROUNDS, colour);
        let cells = cells
            .iter()
            .map(|cell| wrapped(cell, column, colour))
            .collect();
        joined(first, cells, column)
    };
    let heads = block.iter().map(|&number| head(run, number)).collect();
    let mut out = row(vec![Line::of("round", Style::Faint)], heads);
    for (place, round) in run.rounds.iter().enumerate() {
        if round.round % 3 == 0 {
            let head = Line::of(&phase_head(run, round.round / 3 - 1), Style::Faint);
            out.push_str(&paragraphs(&[head], width, colour));
        }
        let first = vec![
            Line::of(&round.round.to_string(), Style::Plain),
            Line::of(words::kind(round.round), Style::Faint),
        ];
        let cells = block
            .iter()
            .map(|&number| cell(run, place, number))
            .collect();
        out.push_str(&row(first, cells));
    }
    out
}

/// A phase with its kings.
fn phase_head(run: &Run, phase: u32) -> String {
    match named_kings(run, phase) {
        none if none.is_empty() => format!("-- phase {phase} --"),
        kings => format!("-- phase {phase}: {kings} --"),
    }
}

/// Cells side by side, without blanks at the ends of lines.
fn joined(first: Vec<String>, cells: Vec<Vec<String>>, column: usize) -> String {
    let height = cells
        .iter()
        .map(Vec::len)
        .max()
        .unwrap_or(0)
        .max(first.len());
    let blank = " ".repeat(column);
    let mut out = String::new();
    for i in 0..height {
        let mut line = first.get(i).cloned().unwrap_or(" ".repeat(ROUNDS));
        for cell in &cells {
            line.push_str(cell.get(i).unwrap_or(&blank));
            line.push_str(&" ".repeat(GAP));
        }
        out.push_str(line.trim_end());
        out.push('\n');
    }
    out
}

/// The verdict in a line, then why.
fn ending(run: &Run, width: usize, colour: bool) -> String {
    let verdict = verdict(run);
    let style = if verdict.agreed {
        Style::Good
    } else {
        Style::Bad
    };
    let why = story(run)
        .into_iter()
        .map(|line| Line::of(&format!("- {line}"), Style::Plain));
    let why: Vec<Line> = why.collect();
    painted(&verdict.text, style, colour) + "\n" + &paragraphs(&why, width, colour)
}
