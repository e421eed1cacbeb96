//! The command: its words, what it prints, and how it ends.

use drill::terminal::wants_colour;
use std::ffi::OsStr;
use std::fs;
use std::io::Write;
use std::path::{Path, PathBuf};
use std::process::{Command, Output, Stdio};

const AGREED: Option<i32> = Some(0);
const BROKEN: Option<i32> = Some(1);
const WRONG: Option<i32> = Some(2);

fn drill(words: &[&str]) -> Output {
    drill_with(words, "")
}

/// With so much on standard input.
fn drill_with(words: &[&str], input: &str) -> Output {
    let mut child = Command::new(env!("CARGO_BIN_EXE_drill"))
        .args(words)
        .stdin(Stdio::piped())
        .stdout(Stdio::piped())
        .stderr(Stdio::piped())
        .spawn()
        .expect("the drill");
    let mut stdin = child.stdin.take().expect("its input");
    // It may end before it reads all.
    let _ = stdin.write_all(input.as_bytes());
    drop(stdin);
    child.wait_with_output().expect("its end")
}

fn out(output: &Output) -> String {
    String::from_utf8(output.stdout.clone()).expect("text")
}

fn error(output: &Output) -> String {
    String::from_utf8(output.stderr.clone()).expect("text")
}

fn temporary(name: &str) -> PathBuf {
    Path::new(env!("CARGO_TARGET_TMPDIR")).join(name)
}

#[test]
fn without_words_it_runs_the_incident_and_says_what_else() {
    let output = drill(&[]);
    assert_eq!(output.status.code(), AGREED);
    let printed = out(&output);
    assert!(printed.starts_with("The incident: "));
    assert!(printed.contains("\nall decided 0 in round 18 (limit 18), brought in by 6 and 10\n"));
    for part in [
        "--page",
        "--rule printed",
        "--worst",
        "docs/DRILL.md",
        "spare-section",
    ] {
        assert!(printed.contains(part), "{part}");
    }
    assert!(!printed.contains('\x1b'));
}

#[test]
fn with_a_name_it_prints_what_is_stored() {
    let stored = Path::new(env!("CARGO_MANIFEST_DIR")).join("scenarios/flood.table");
    let stored = fs::read_to_string(stored).expect("the table");
    assert_eq!(out(&drill(&["flood"])), stored);
}

#[test]
fn a_broken_line_ends_with_1() {
    let output = drill(&["line-of-three"]);
    assert_eq!(output.status.code(), BROKEN);
    let printed = out(&output);
    assert!(printed.contains("WARNING: 1 of 3 is faulty, a third or more. Nothing is promised"));
    assert!(printed.contains("\nBROKEN: 5 decided 0, 7 decided 1\n"));
    let output = drill(&["--rule", "printed", "last-trial"]);
    assert_eq!(output.status.code(), BROKEN);
}

#[test]
fn a_wrong_scenario_ends_with_2_and_nothing_is_run() {
    let output = drill_with(&["-"], "line 5=1 5=0\n");
    assert_eq!((output.status.code(), out(&output)), (WRONG, String::new()));
    assert!(error(&output).starts_with("-, line 1: 5 is on the line twice\n"));
    let output = drill(&["no-such-file"]);
    assert_eq!((output.status.code(), out(&output)), (WRONG, String::new()));
    assert!(error(&output).contains("  incident "), "{}", error(&output));
    let not_text = temporary("not_text");
    fs::write(&not_text, b"line 5=1\n\xff\n").expect("a file");
    let output = drill(&[not_text.to_str().expect("a name")]);
    assert_eq!((output.status.code(), out(&output)), (WRONG, String::new()));
    let what = ", line 2: this is no text in UTF-8\n";
    assert!(error(&output).ends_with(what), "{}", error(&output));
}

/// Bytes from the cable that are a tray of the round would be worked.
#[test]
fn junk_that_is_a_tray_is_a_mistake() {
    let output = drill_with(
        &["-"],
        "line 5=1\nround 1 junk for 5: bytes 00000001 0000 0000\n",
    );
    assert_eq!((output.status.code(), out(&output)), (WRONG, String::new()));
    assert!(error(&output).starts_with("-, line 2: 5 works these bytes as its tray of round 1\n"));
}

#[test]
fn wrong_words_end_with_2() {
    let wrong: [(&[&str], &str); 8] = [
        (&["--wrost", "3"], "--wrost is unknown"),
        (&["--worst"], "--worst lacks its value"),
        (&["--worst", "0"], "--worst 0: a number from 1"),
        (&["--width", "12"], "--width 12: a number from 40"),
        (
            &["--rule", "engine"],
            "--rule engine: there is only printed",
        ),
        (&["incident", "flood"], "flood: one scenario at a time"),
        (&["--page"], "--page lacks its value"),
        (
            &["--page", "mine.txt"],
            "--page mine.txt: a name in .html or .svg is wanted",
        ),
    ];
    for (words, what) in wrong {
        let output = drill(words);
        assert_eq!(
            (output.status.code(), out(&output)),
            (WRONG, String::new()),
            "{words:?}"
        );
        assert!(
            error(&output).starts_with(what),
            "{words:?}: {}",
            error(&output)
        );
    }
    assert_eq!(drill(&["--help"]).status.code(), AGREED);
}

#[test]
fn what_cannot_be_written_is_said() {
    let output = drill(&["--page", "/no/such/folder/page.html"]);
    assert_eq!(output.status.code(), WRONG);
    assert!(error(&output).starts_with("/no/such/folder/page.html: "));
    assert!(out(&output).contains("\nall decided 0 in round 18"));
}

#[test]
fn colour_is_for_terminals_that_want_it() {
    let wants = |terminal, none: Option<&str>, term: &str| {
        wants_colour(terminal, none.map(OsStr::new), Some(OsStr::new(term)))
    };
    assert!(wants(true, None, "xterm") && wants(true, Some(""), "xterm"));
    assert!(!wants(true, Some("1"), "xterm") && !wants(false, None, "xterm"));
    assert!(!wants(true, None, "dumb"));
}

#[test]
fn the_worst_is_a_scenario() {
    let found = drill(&["--worst", "50", "incident"]);
    assert_eq!(found.status.code(), AGREED);
    let text = out(&found);
    assert!(text.starts_with("# The worst of 50 random liars: all decided "));
    let again = drill_with(&["-"], &text);
    assert_eq!(again.status.code(), AGREED);
    let verdict = text
        .lines()
        .next()
        .and_then(|line| line.split_once("liars: "))
        .expect("a verdict")
        .1;
    assert!(out(&again).contains(&format!("\n{verdict}\n")));
    let page = temporary("worst.html");
    let name = page.to_str().expect("a name");
    assert_eq!(
        drill(&["--worst", "2", "mad-late", "--page", name])
            .status
            .code(),
        AGREED
    );
    let page = fs::read_to_string(page).expect("the page");
    assert!(!page.contains("not followed"), "all of it is followed");
    let broken = drill(&["--worst", "100", "line-of-three"]);
    assert_eq!(broken.status.code(), BROKEN);
    let output = drill_with(&["--worst", "5", "-"], "line 5=1\n");
    assert_eq!(output.status.code(), WRONG);
    assert!(error(&output).contains("nobody on this line is faulty"));
}

#[test]
fn the_page_is_written() {
    let file = temporary("incident.html");
    let name = file.to_str().expect("a name");
    assert_eq!(drill(&["incident", "--page", name]).status.code(), AGREED);
    let page = fs::read_to_string(&file).expect("the page");
    assert!(page.starts_with("<!DOCTYPE html>") && page.contains("all decided 0 in round 18"));
    let file = temporary("incident.svg");
    let name = file.to_str().expect("a name");
    assert_eq!(drill(&["incident", "--page", name]).status.code(), AGREED);
    assert!(fs::read_to_string(&file)
        .expect("the picture")
        .starts_with("<svg "));
}
