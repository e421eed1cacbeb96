//! A mistake in a scenario: where it is, what is wrong, and what is allowed there.

use std::fmt::Write;

#[derive(Clone, Debug, PartialEq, Eq)]
pub struct Mistake {
    /// The line, from 1; 0 if it is the whole text's.
    pub line: usize,
    /// Where in the line, and how many characters.
    pub column: usize,
    pub length: usize,
    pub what: String,
    pub allowed: String,
}

impl Mistake {
    /// One of the text as a whole.
    pub fn of_text(what: impl Into<String>, allowed: impl Into<String>) -> Mistake {
        Mistake::of_line(0, what, allowed)
    }

    /// One of a whole line.
    pub fn of_line(line: usize, what: impl Into<String>, allowed: impl Into<String>) -> Mistake {
        Mistake {
            line,
            column: 0,
            length: 0,
            what: what.into(),
            allowed: allowed.into(),
        }
    }
}

/// The most mistakes that are shown.
const MOST_SHOWN: usize = 20;

/// The mistakes of a text, each with its line and a mark under the words.
pub fn shown(name: &str, text: &str, mistakes: &[Mistake]) -> String {
    let mut out = String::new();
    for mistake in mistakes.iter().take(MOST_SHOWN) {
        let Mistake { line, what, .. } = mistake;
        let _ = match line {
            0 => writeln!(out, "{name}: {what}"),
            _ => writeln!(out, "{name}, line {line}: {what}"),
        };
        if let Some(source) = line.checked_sub(1).and_then(|i| text.lines().nth(i)) {
            let source: String = source.chars().map(plain).collect();
            let _ = writeln!(out, "    {source}");
            if mistake.length > 0 {
                let blank = " ".repeat(mistake.column);
                let mark = "^".repeat(mistake.length);
                let _ = writeln!(out, "    {blank}{mark}");
            }
        }
        let _ = writeln!(out, "  allowed here: {}", mistake.allowed);
    }
    if mistakes.len() > MOST_SHOWN {
        let more = mistakes.len() - MOST_SHOWN;
        let _ = writeln!(out, "{name}: {more} more like these");
    }
    out
}

/// A character as it can be shown in a line: no tab and nothing that steers a terminal.
fn plain(character: char) -> char {
    match character.is_control() {
        true => ' ',
        false => character,
    }
}
