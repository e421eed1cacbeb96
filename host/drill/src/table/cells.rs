//! What stands in the cells of the table: a correct one's round, and what a faulty one told.

use crate::facts::{groups, Group, Told};
use crate::run::{Round, Run, Seen};
use crate::table::layout::{Line, Style};
use crate::words;

/// The most groups of receivers that are told apart in a cell.
const MOST_GROUPS: usize = 8;

/// The column's head.
pub fn head(run: &Run, number: u32) -> Vec<Line> {
    let name = Line::of(&number.to_string(), Style::Plain);
    match run.scenario.correct.get(&number) {
        Some(&bit) => vec![
            name,
            Line::of(&format!("brought {bit}"), Style::of_bit(bit)),
        ],
        None => vec![name, Line::of("FAULTY", Style::Faulty)],
    }
}

/// What a controller did in a round.
pub fn cell(run: &Run, place: usize, number: u32) -> Vec<Line> {
    let round = &run.rounds[place];
    let faulty = run.scenario.faulty.iter().position(|&one| one == number);
    let correct = run.scenario.correct.keys().position(|&one| one == number);
    match (faulty, correct) {
        (Some(faulty), _) => told(run, round, faulty),
        (_, Some(correct)) => {
            let before = place
                .checked_sub(1)
                .map(|i| &run.rounds[i].correct[correct]);
            seen(round, &round.correct[correct], before)
        }
        _ => Vec::new(),
    }
}

/// What a correct one sent, its state, and what it refused.
fn seen(round: &Round, seen: &Seen, before: Option<&Seen>) -> Vec<Line> {
    let state = &seen.state;
    let mut lines = match (seen.is_out(round.round), state.undecided()) {
        (true, true) => vec![Line::of(seen.out(), Style::Bad)],
        (true, false) => vec![Line::of(seen.out(), Style::Faint)],
        (false, true) => {
            let sent = Told::sent(&seen.sent, round.round).short();
            vec![Line::of(&sent, Style::Plain), held(seen, before)]
        }
        (false, false) => {
            let decided = format!("DECIDED {}", state.decision);
            vec![Line::of(&decided, Style::Good), held(seen, before)]
        }
    };
    let refused = |refusal: &u8| Line::of(&format!("junk refused {refusal}"), Style::Faint);
    lines.extend(seen.junk.iter().map(refused));
    if let Some(refusal) = seen.refused {
        lines.push(Line::of(&format!("tray refused {refusal}"), Style::Bad));
    }
    lines
}

/// Bit, king, and how many are heard and are candidates.
fn held(seen: &Seen, before: Option<&Seen>) -> Line {
    let state = &seen.state;
    let bit = match before {
        Some(before) if before.state.bit != state.bit => {
            format!("bit {}→{}", before.state.bit, state.bit)
        }
        _ => format!("bit {}", state.bit),
    };
    let line = Line::of(&bit, Style::of_bit(state.bit));
    let line = match state.king {
        0 => line,
        king => line.and(&format!("king {king}"), Style::Plain),
    };
    let counts = format!("{}/{}", state.heard.len(), state.candidates.len());
    line.and(&counts, Style::Faint)
}

/// What a faulty one told whom, marked where it told them different things.
fn told(run: &Run, round: &Round, faulty: usize) -> Vec<Line> {
    let groups = groups(run, round, faulty);
    let mark = match groups.len() {
        0 | 1 => Line::default(),
        _ => Line::of("≠", Style::Bad),
    };
    let line = |group: &Group| {
        let to = match group.to.len() == run.scenario.correct.len() {
            true => "all".into(),
            false => words::short_numbers(&group.to),
        };
        let told = format!("{to}: {}", group.told.short());
        mark.clone().and(&told, Style::Faulty)
    };
    let mut lines: Vec<Line> = groups.iter().take(MOST_GROUPS).map(line).collect();
    if groups.len() > MOST_GROUPS {
        let more = format!("and {} more", groups.len() - MOST_GROUPS);
        lines.push(mark.and(&more, Style::Faulty));
    }
    lines
}
