//! The session printer on inputs that end in each way an input can.
//!
//! `inputs/` has each input in hex, and beside it what the printer is to write. The
//! program is the proved one, which `rt run` in crates/session makes.

#![cfg(not(feature = "fault"))]

use std::collections::BTreeSet;
use std::ffi::OsStr;
use std::fs;
use std::io::Write;
use std::path::{Path, PathBuf};
use std::process::{Command, Stdio};

use checks::{c, hex};

/// What the printer writes for an input. It may end before it has read all of it,
/// and then the rest cannot be handed over.
fn printed(input: &[u8]) -> String {
    let program = c::root().join("crates/session/out/session");
    let mut running = Command::new(&program)
        .stdin(Stdio::piped())
        .stdout(Stdio::piped())
        .spawn()
        .unwrap_or_else(|e| panic!("{}: {e}; `rt run` in crates/session makes it", program.display()));
    let _ = running.stdin.take().expect("its input").write_all(input);
    let ended = running.wait_with_output().expect("its output");
    assert!(ended.status.success());
    String::from_utf8(ended.stdout).expect("text")
}

fn inputs() -> Vec<PathBuf> {
    let folder = Path::new(env!("CARGO_MANIFEST_DIR")).join("inputs");
    let files = fs::read_dir(folder).expect("a folder of inputs");
    let paths = files.map(|file| file.expect("a file").path());
    paths
        .filter(|path| path.extension() == Some(OsStr::new("hex")))
        .collect()
}

#[test]
fn the_printer_writes_what_is_expected() {
    let mut wrong = Vec::new();
    let mut endings = BTreeSet::new();
    for path in inputs() {
        let text = fs::read_to_string(&path).expect("an input");
        let input = hex::bytes(&text).expect("hex");
        let expected = fs::read_to_string(path.with_extension("stdout")).expect("what is expected");
        let printed = printed(&input);
        if printed != expected {
            wrong.push(format!("{}:\n{printed}", path.display()));
        }
        endings.extend(expected.lines().last().map(str::to_string));
    }
    assert!(wrong.is_empty(), "{}", wrong.join("\n"));
    for ending in ["cut", "long", "refused 2", "refused 9", "3 3 1 0 1 1 7 2"] {
        assert!(endings.contains(ending), "no input ends with {ending}");
    }
}
