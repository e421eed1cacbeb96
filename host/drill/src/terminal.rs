//! What the terminal is like: how wide, and whether colour is wanted.

use std::env;
use std::ffi::OsStr;
use std::fs::File;
use std::io::{self, IsTerminal};
use std::process::{Command, Stdio};

/// The width where the output is no terminal.
const WIDTH: usize = 100;
/// The least width of the table.
pub const LEAST_WIDTH: usize = 40;

/// Whether to colour what is printed.
pub fn has_colour() -> bool {
    let (none, term) = (env::var_os("NO_COLOR"), env::var_os("TERM"));
    wants_colour(io::stdout().is_terminal(), none.as_deref(), term.as_deref())
}

/// Colour is for terminals that can show it, unless NO_COLOR is set to anything.
pub fn wants_colour(terminal: bool, no_color: Option<&OsStr>, term: Option<&OsStr>) -> bool {
    let refused = no_color.is_some_and(|value| !value.is_empty());
    let plain = term.is_some_and(|term| term == "dumb");
    terminal && !refused && !plain
}

/// The width asked for, or the terminal's.
pub fn width(asked: Option<usize>) -> usize {
    let told = || env::var("COLUMNS").ok()?.parse().ok();
    let terminal = || match io::stdout().is_terminal() {
        true => told().or_else(measured),
        false => None,
    };
    asked.or_else(terminal).unwrap_or(WIDTH).max(LEAST_WIDTH)
}

/// What `stty` says of the terminal's width.
fn measured() -> Option<usize> {
    let terminal = File::open("/dev/tty").ok()?;
    let mut stty = Command::new("stty");
    let size = stty
        .arg("size")
        .stdin(terminal)
        .stderr(Stdio::null())
        .output()
        .ok()?;
    let size = String::from_utf8(size.stdout).ok()?;
    size.split_whitespace().nth(1)?.parse().ok()
}
