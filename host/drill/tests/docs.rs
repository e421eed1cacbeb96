//! docs/DRILL.md is true: its scenarios run, its mistake is answered so, its list is the one
//! of the drill, and its picture is the one that the drill draws.

use std::path::{Path, PathBuf};
use std::{env, fs};

use drill::bundled;
use drill::mistake::shown;
use drill::page::picture;
use drill::parse::parse;
use drill::run::{run, Rule};
use drill::scenario::{Deed, Junk, Saying};
use drill::verdict::verdict;

fn docs() -> PathBuf {
    Path::new(env!("CARGO_MANIFEST_DIR")).join("../../docs")
}

fn page() -> String {
    fs::read_to_string(docs().join("DRILL.md")).expect("the page")
}

/// The blocks of one kind.
fn blocks(kind: &str) -> Vec<String> {
    let open = format!("```{kind}\n");
    let page = page();
    let parts = page.split(&open).skip(1);
    parts
        .map(|part| part.split("```").next().expect("an end").to_string())
        .collect()
}

#[test]
fn its_scenarios_run() {
    let all = blocks("scenario");
    assert_eq!(all.len(), 4);
    for text in all {
        let scenario = parse(&text).unwrap_or_else(|m| panic!("{}", shown("page", &text, &m)));
        let run = run(&scenario, Rule::Engine).expect("a run");
        assert!(verdict(&run).agreed, "{text}");
    }
}

#[test]
fn its_mistake_is_answered_so() {
    let (wrong, answer) = (blocks("wrong"), blocks("answer"));
    let mistakes = parse(&wrong[0]).expect_err("a mistake");
    assert_eq!(shown("my-scenario.txt", &wrong[0], &mistakes), answer[0]);
}

/// The cells of the rows of a table, by the words of its head.
fn rows(head: &str) -> Vec<Vec<String>> {
    let page = page();
    let lines = page
        .lines()
        .skip_while(|line| !line.starts_with(head))
        .skip(2);
    let cells = |line: &str| {
        line.trim_matches('|')
            .split(" | ")
            .map(|cell| cell.trim().to_string())
            .collect()
    };
    lines
        .take_while(|line| line.starts_with('|'))
        .map(cells)
        .collect()
}

/// What stands between backticks.
fn quoted(cell: &str) -> Vec<String> {
    cell.split('`')
        .skip(1)
        .step_by(2)
        .map(str::to_string)
        .collect()
}

#[test]
fn its_list_is_the_drills() {
    let listed: Vec<(String, String)> = rows("| name |")
        .into_iter()
        .map(|row| (quoted(&row[0])[0].clone(), row[1].clone()))
        .collect();
    let title = |text: &str| text.lines().next().expect("a title")[2..].to_string();
    let own = bundled::ALL
        .iter()
        .map(|(name, text)| (name.to_string(), title(text)));
    assert_eq!(listed, own.collect::<Vec<_>>());
}

/// Every word of the table can be told in the rounds beside it, and no other is left out.
#[test]
fn its_words_can_be_told() {
    let mut told: Vec<Saying> = Vec::new();
    for row in rows("| what is told |") {
        let round = match row[1].as_str() {
            "all" => 3,
            rounds => rounds
                .split(',')
                .next()
                .and_then(|first| first.parse().ok())
                .expect("a round"),
        };
        for words in quoted(&row[0]) {
            let text = format!("line 5=1 7=0 9=1\nfaulty 3\nround {round} 3 tells all: {words}\n");
            let scenario = parse(&text).unwrap_or_else(|m| panic!("{}", shown("page", &text, &m)));
            match &scenario.orders[0].deed {
                Deed::Tells { what, .. } => told.extend(what.clone()),
                deed => panic!("{deed:?}"),
            }
        }
    }
    let kinds: std::collections::BTreeSet<String> = told
        .iter()
        .map(|saying| {
            saying
                .to_string()
                .split(' ')
                .next()
                .expect("a word")
                .to_string()
        })
        .collect();
    let names = "anything bit bytes cut empty garbled honest init lists opinion propose \
                 repeats silent stale twice value";
    assert_eq!(kinds.into_iter().collect::<Vec<_>>().join(" "), names);
}

/// Each kind of junk is refused under the number beside it.
#[test]
fn its_junk_is_refused_so() {
    let rows = rows("| junk |");
    assert_eq!(rows.len(), 6);
    for row in rows {
        let words = &quoted(&row[0])[0];
        let text = format!("line 5=1 7=0 9=1\nround 4 junk for 5: {words}\n");
        let scenario = parse(&text).unwrap_or_else(|m| panic!("{}", shown("page", &text, &m)));
        let bytes = matches!(
            &scenario.orders[0].deed,
            Deed::Junk {
                junk: Junk::Bytes(_),
                ..
            }
        );
        let run = run(&scenario, Rule::Engine).expect("a run");
        let refusal = run.rounds[3].correct[0].junk[0].to_string();
        assert!(
            bytes || row[1].starts_with(&format!("{refusal}:")),
            "{row:?}: {refusal}"
        );
    }
}

/// DRILL_STORE=1 stores the picture anew.
#[test]
fn its_picture_is_the_incident() {
    let scenario = parse(bundled::text("incident").expect("a text")).expect("a scenario");
    let drawn = picture(&run(&scenario, Rule::Engine).expect("a run"));
    let file = docs().join("incident.svg");
    if env::var_os("DRILL_STORE").is_some() {
        fs::write(&file, &drawn).expect("the picture");
    }
    assert!(
        fs::read_to_string(&file).expect("the picture") == drawn,
        "DRILL_STORE=1 stores it anew"
    );
    assert!(page().contains("](incident.svg)"));
}
