//! Pages of docs/, read by the tests that hold what they say to be true: tables,
//! and the worked calls of docs/FORMAT.md.

use std::fs;

use crate::{c, hex};

/// A call of the page, what is set before one, or what comes out of one.
#[derive(Clone, Debug)]
pub enum Line {
    Start {
        number: u32,
        bit: u8,
    },
    Tray(Vec<u8>),
    /// Empty where a call sends nothing.
    Frame(Vec<u8>),
    State(String),
    Refused(u8),
    ImageLen(usize),
    OutLen(usize),
    ImageByte {
        at: usize,
        byte: u8,
    },
}

/// A page's text.
pub fn text(name: &str) -> String {
    fs::read_to_string(c::root().join("docs").join(name)).expect(name)
}

/// The rows of tables under a heading, each as its cells.
pub fn rows(text: &str, heading: &str) -> Vec<Vec<String>> {
    let all = text.lines().skip_while(|line| *line != heading).skip(1);
    let section = all.take_while(|line| !line.starts_with("## "));
    let cells = |line: &str| {
        let cells = line.trim_matches('|').split('|');
        cells.map(|cell| cell.trim().to_string()).collect()
    };
    section
        .filter(|line| line.starts_with('|'))
        .map(cells)
        .collect()
}

/// The bytes in a cell, if it holds hex between backticks.
pub fn bytes_in(cell: &str) -> Option<Vec<u8>> {
    hex::bytes(cell.strip_prefix('`')?.strip_suffix('`')?)
}

/// The blocks of worked calls.
pub fn blocks(text: &str) -> Vec<Vec<Line>> {
    let parts = text.split("```calls\n").skip(1);
    parts
        .map(|part| block(part.split("```").next().expect("an end of the block")))
        .collect()
}

/// Without remarks, and with a line that begins with a space added to the one before.
fn block(text: &str) -> Vec<Line> {
    let mut joined: Vec<String> = Vec::new();
    for line in text.lines() {
        let kept = line.split('#').next().unwrap_or_default();
        match joined.last_mut() {
            Some(last) if kept.starts_with(' ') => last.push_str(kept),
            _ if kept.trim().is_empty() => (),
            _ => joined.push(kept.trim().to_string()),
        }
    }
    let parsed = |text: &String| line(text).unwrap_or_else(|| panic!("no such line: {text}"));
    joined.iter().map(parsed).collect()
}

fn line(text: &str) -> Option<Line> {
    let (word, rest) = text.split_once(' ')?;
    let line = match word {
        "start" => {
            let (number, bit) = rest.split_once(' ')?;
            let (number, bit) = (number.parse().ok()?, bit.parse().ok()?);
            Line::Start { number, bit }
        }
        "tray" => Line::Tray(hex::bytes(rest)?),
        "frame" if rest == "none" => Line::Frame(Vec::new()),
        "frame" => Line::Frame(hex::bytes(rest)?),
        "state" => Line::State(rest.to_string()),
        "refused" => Line::Refused(rest.parse().ok()?),
        "image_len" => Line::ImageLen(rest.strip_prefix("= ")?.parse().ok()?),
        "out_len" => Line::OutLen(rest.strip_prefix("= ")?.parse().ok()?),
        _ => {
            let at = word
                .strip_prefix("image[")?
                .strip_suffix(']')?
                .parse()
                .ok()?;
            let byte = hex::bytes(rest.strip_prefix("= ")?)?;
            Line::ImageByte {
                at,
                byte: *byte.first()?,
            }
        }
    };
    Some(line)
}
