//! The scenarios that come with the drill: what is printed of each is stored beside it and
//! compared. DRILL_STORE=1 stores it anew; what changed is then for git to show.

use std::path::{Path, PathBuf};
use std::{env, fs};

use drill::bundled;
use drill::parse::parse;
use drill::run::{run, Rule};
use drill::table::shown;
use drill::verdict::verdict;

const WIDTH: usize = 100;

fn folder() -> PathBuf {
    Path::new(env!("CARGO_MANIFEST_DIR")).join("scenarios")
}

/// What is printed of a scenario.
fn printed(name: &str, rule: Rule, width: usize) -> String {
    let scenario = parse(bundled::text(name).expect(name)).expect(name);
    let run = run(&scenario, rule).expect(name);
    shown(&run, width, false)
}

fn compare(file: &str, printed: &str) {
    let path = folder().join(file);
    if env::var_os("DRILL_STORE").is_some() {
        fs::write(&path, printed).expect(file);
    }
    let stored = fs::read_to_string(&path).expect(file);
    assert_eq!(stored, printed, "{file}: DRILL_STORE=1 stores it anew");
}

#[test]
fn every_table_is_as_stored() {
    for (name, _) in bundled::ALL {
        compare(
            &format!("{name}.table"),
            &printed(name, Rule::Engine, WIDTH),
        );
    }
    compare(
        "last-trial.printed.table",
        &printed("last-trial", Rule::Printed, WIDTH),
    );
}

/// Every scenario of the folder is one that the drill knows, with a title and two lines on what
/// to notice.
#[test]
fn every_file_comes_with_the_drill() {
    let files = fs::read_dir(folder())
        .expect("the folder")
        .map(|file| file.expect("a file").path());
    let texts: Vec<PathBuf> = files
        .filter(|file| file.extension().is_some_and(|e| e == "txt"))
        .collect();
    assert_eq!(texts.len(), bundled::ALL.len());
    for (name, text) in bundled::ALL {
        let file = folder().join(format!("{name}.txt"));
        assert_eq!(fs::read_to_string(&file).expect(name), text);
        let heading = parse(text).expect(name).heading;
        assert_eq!(heading.len(), 3, "{name}");
        assert!(
            heading[1..].iter().all(|line| line.starts_with("Notice: ")),
            "{name}"
        );
    }
}

/// All hold but the one that is to break, and document 01's last trial with the printed rule.
#[test]
fn what_holds_and_what_breaks() {
    for (name, text) in bundled::ALL {
        let scenario = parse(text).expect(name);
        let verdict = verdict(&run(&scenario, Rule::Engine).expect(name));
        assert_eq!(
            verdict.agreed,
            name != "line-of-three",
            "{name}: {}",
            verdict.text
        );
        assert_eq!(scenario.is_promised(), name != "line-of-three", "{name}");
    }
    let scenario = parse(bundled::text("last-trial").expect("a text")).expect("a scenario");
    let verdict = verdict(&run(&scenario, Rule::Printed).expect("a run"));
    assert_eq!(verdict.text, "BROKEN: 9 decided 0, 5 and 7 decided 1");
}

/// Document 01's last trial: who names whom, who is a candidate, and when they decide.
#[test]
fn the_last_trial_is_document_01s() {
    let scenario = parse(bundled::text("last-trial").expect("a text")).expect("a scenario");
    let run = run(&scenario, Rule::Engine).expect("a run");
    let kings = |round: usize| {
        run.rounds[round - 1]
            .correct
            .iter()
            .map(|seen| seen.state.king)
            .collect::<Vec<_>>()
    };
    assert_eq!(kings(3), [5, 5, 3]);
    assert_eq!(kings(6), [5, 5, 5]);
    let all = [3, 5, 7, 9];
    assert!(run.rounds[5]
        .correct
        .iter()
        .all(|seen| seen.state.candidates == all));
    assert!(run.rounds[14]
        .correct
        .iter()
        .all(|seen| seen.state.round == 15 && !seen.state.undecided()));
}

/// However narrow or wide, no line is wider, and every decision is there.
#[test]
fn tables_fit_the_width() {
    for (name, _) in bundled::ALL {
        for width in [40, 41, 60, 80, 100, 137, 250] {
            let printed = printed(name, Rule::Engine, width);
            let verdict =
                |line: &&str| line.starts_with("all decided") || line.starts_with("BROKEN");
            let lines = printed.lines().filter(|line| !verdict(line));
            let widest = lines.map(|line| line.chars().count()).max();
            assert!(
                widest.is_some_and(|widest| widest <= width),
                "{name}, {width}: {widest:?}"
            );
            assert_eq!(
                printed.matches("DECIDED").count(),
                parse(bundled::text(name).expect(name))
                    .expect(name)
                    .correct
                    .len()
            );
        }
    }
}

/// Colour adds nothing but colour.
#[test]
fn colour_is_only_added() {
    let scenario = parse(bundled::text("incident").expect("a text")).expect("a scenario");
    let run = run(&scenario, Rule::Engine).expect("a run");
    let coloured = shown(&run, WIDTH, true);
    assert!(coloured.contains("\x1b[94mbit\x1b[0m"));
    let mut plain = String::new();
    for (place, part) in coloured.split("\x1b[").enumerate() {
        let kept = if place == 0 {
            part
        } else {
            part.split_once('m').expect("an end").1
        };
        plain.push_str(kept);
    }
    let trimmed = |text: &str| {
        text.lines()
            .map(str::trim_end)
            .collect::<Vec<_>>()
            .join("\n")
    };
    assert_eq!(trimmed(&plain), trimmed(&shown(&run, WIDTH, false)));
}
