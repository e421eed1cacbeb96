//! The page is well formed, shows every controller, round, decision and king, takes a
//! user's text as text, stays of a size that opens, and fits a narrow screen.

use std::collections::{BTreeMap, BTreeSet};
use std::fs::{self, File};
use std::path::{Path, PathBuf};
use std::process::{Command, Stdio};
use std::time::{Duration, Instant};

use drill::facts::{endings, kings};
use drill::page::{page, picture};
use drill::parse::parse;
use drill::run::{run, Rule, Run};

/// What a line of 64 with as many faulty ones as may be is allowed to take.
const LARGEST: usize = 13_000_000;

const LONGEST: &str = "line 1-20=1 42-64=0
faulty 21-41
always seed 7 faulty tell each: anything
";

const JUNK: &str = "line 11=1 13=0 17=1 19=0 23=1
faulty 4294967295
always seed 5 4294967295 tells each: anything
round 4 junk for 11 13: noise
round 7 junk for 11: cut junk for 11: old junk for 11: forged
";

/// Too many are faulty, and what they list is more than a state can hold.
const STUCK: &str = "line 5=1 7=0
faulty 3 4
always faulty tell all: honest
round 2 faulty tell all: lists 1000-1063
";

const ALONE: &str = "line 9=1
";

/// A text of each kind, and every scenario of the crate.
fn scenarios() -> Vec<String> {
    let mut all: Vec<String> = [JUNK, STUCK, ALONE].map(String::from).into();
    let folder = Path::new(env!("CARGO_MANIFEST_DIR")).join("scenarios");
    for entry in fs::read_dir(folder).expect("the folder of the scenarios") {
        let path = entry.expect("an entry of it").path();
        if path.extension().is_some_and(|ending| ending == "txt") {
            all.push(fs::read_to_string(path).expect("a scenario"));
        }
    }
    all
}

/// Runs a text by both rules and hands each run over.
fn with_runs(text: &str, hold: impl Fn(&Run)) {
    let scenario = parse(text).expect("a scenario");
    for rule in [Rule::Engine, Rule::Printed] {
        hold(&run(&scenario, rule).expect("a run"));
    }
}

/// An element as it was opened.
struct Element {
    name: String,
    attributes: BTreeMap<String, String>,
    parent: Option<usize>,
}

/// The elements of a text, which has to be well formed as XML and as HTML.
struct Reader<'a> {
    rest: &'a str,
    open: Vec<usize>,
    elements: Vec<Element>,
}

fn elements(text: &str) -> Vec<Element> {
    let mut reader = Reader {
        rest: text.trim_start_matches("<!DOCTYPE html>").trim(),
        open: Vec::new(),
        elements: Vec::new(),
    };
    while let Some(at) = reader.rest.find('<') {
        hold_entities(&reader.rest[..at]);
        reader.rest = &reader.rest[at + 1..];
        match reader.rest.strip_prefix('/') {
            Some(rest) => reader.close(rest),
            None => reader.open(),
        }
    }
    assert!(reader.open.is_empty(), "all are closed");
    assert_eq!(reader.rest, "", "nothing is behind the root");
    hold_links(&reader.elements);
    reader.elements
}

impl<'a> Reader<'a> {
    fn close(&mut self, rest: &'a str) {
        let (name, rest) = rest.split_once('>').expect("an end of the tag");
        let last = self.open.pop().expect("something is open");
        assert_eq!(self.elements[last].name, name, "closed in order");
        self.rest = rest;
    }

    fn open(&mut self) {
        let end = self.rest.find([' ', '>', '/']).expect("an end of the name");
        let name = self.rest[..end].to_string();
        let is_name = |c: char| c.is_ascii_alphanumeric();
        assert!(
            !name.is_empty() && name.chars().all(is_name),
            "<{name}> is a name"
        );
        self.rest = &self.rest[end..];
        let attributes = self.attributes();
        let place = self.elements.len();
        self.elements.push(Element {
            name: name.clone(),
            attributes,
            parent: self.open.last().copied(),
        });
        if let Some(rest) = self.rest.strip_prefix("/>") {
            // An HTML reader closes other elements of its own only by a tag.
            let is_void = matches!(name.as_str(), "meta" | "br");
            assert!(is_void || self.is_drawn(), "<{name}/> closes itself");
            self.rest = rest;
            return;
        }
        self.rest = self.rest.strip_prefix('>').expect("an end of the tag");
        self.open.push(place);
        if name == "style" {
            let end = self.rest.find("</style>").expect("an end of the style");
            assert!(
                !self.rest[..end].contains(['<', '&']),
                "a style without < and &"
            );
        }
    }

    fn is_drawn(&self) -> bool {
        self.open
            .iter()
            .any(|&place| self.elements[place].name == "svg")
    }

    fn attributes(&mut self) -> BTreeMap<String, String> {
        let mut all = BTreeMap::new();
        while let Some(rest) = self.rest.strip_prefix(' ') {
            let (name, rest) = rest.split_once("=\"").expect("a quoted value");
            let (value, rest) = rest.split_once('"').expect("an end of the value");
            let is_name = |c: char| c.is_ascii_alphanumeric() || c == '-';
            assert!(name.chars().all(is_name), "`{name}` is a name");
            assert!(!value.contains('<'), "`{value}` is escaped");
            hold_entities(value);
            let before = all.insert(name.to_string(), value.to_string());
            assert!(before.is_none(), "{name} stands once");
            self.rest = rest;
        }
        all
    }
}

fn hold_entities(text: &str) {
    for part in text.split('&').skip(1) {
        let known = ["amp;", "lt;", "gt;", "quot;"];
        assert!(
            known.iter().any(|entity| part.starts_with(entity)),
            "&{part} is known"
        );
    }
    let is_odd = |c: char| c.is_control() && c != '\n' && c != '\t';
    assert!(!text.contains(is_odd), "no control characters");
}

/// Each id stands once, and each link within the page leads to one.
fn hold_links(elements: &[Element]) {
    let of = |name: &'static str| elements.iter().filter_map(move |e| e.attributes.get(name));
    let mut ids = BTreeSet::new();
    for id in of("id") {
        assert!(ids.insert(id.as_str()), "{id} stands once");
    }
    for link in of("href") {
        let id = link.strip_prefix('#').expect("a link within the page");
        assert!(ids.contains(id), "{link} leads somewhere");
    }
    assert!(
        elements.iter().all(|element| element.name != "script"),
        "no script"
    );
}

/// Nothing is fetched from anywhere.
fn hold_offline(text: &str) {
    let text = text.replace("http://www.w3.org/2000/svg", "");
    assert!(
        !text.contains("http:") && !text.contains("https:"),
        "no address"
    );
    assert!(
        !text.contains("@import") && !text.contains("src="),
        "nothing is loaded"
    );
}

/// The attribute of an element, or of what it stands in.
fn around<'a>(elements: &'a [Element], of: &'a Element, name: &str) -> Option<&'a str> {
    match of.attributes.get(name) {
        Some(value) => Some(value),
        None => around(elements, &elements[of.parent?], name),
    }
}

fn number(elements: &[Element], of: &Element, name: &str) -> u32 {
    let value = around(elements, of, name).unwrap_or_else(|| panic!("{name} of a {}", of.name));
    value.parse().expect("a number")
}

fn with<'a>(elements: &'a [Element], name: &'a str) -> impl Iterator<Item = &'a Element> {
    elements
        .iter()
        .filter(move |element| element.attributes.contains_key(name))
}

fn hold_lanes(run: &Run, elements: &[Element]) {
    let stages = 1 + (run.rounds.len() - 2).div_ceil(3);
    let mut lanes: BTreeMap<u32, usize> = BTreeMap::new();
    for lane in with(elements, "data-lane") {
        *lanes
            .entry(number(elements, lane, "data-lane"))
            .or_default() += 1;
    }
    let numbers: BTreeSet<u32> = lanes.keys().copied().collect();
    assert_eq!(numbers, run.scenario.numbers(), "a lane for each");
    assert!(
        lanes.values().all(|&count| count == stages),
        "in each stage"
    );
    let columns = with(elements, "data-round").filter(|element| element.name == "text");
    let columns: Vec<u32> = columns
        .map(|column| number(elements, column, "data-round"))
        .collect();
    let rounds: Vec<u32> = run.rounds.iter().map(|round| round.round).collect();
    assert_eq!(columns, rounds, "a column for each round");
}

fn hold_decisions(run: &Run, elements: &[Element]) {
    let shown: BTreeSet<[u32; 3]> = with(elements, "data-decided")
        .map(|cell| ["data-lane", "data-round", "data-decided"].map(|n| number(elements, cell, n)))
        .collect();
    let endings = endings(run);
    let decided = endings.iter().filter(|ending| ending.decision != 2);
    let decided: BTreeSet<[u32; 3]> = decided
        .map(|ending| [ending.number, ending.round, ending.decision.into()])
        .collect();
    assert_eq!(shown, decided, "each decision in its lane and round");
}

fn hold_crowns(run: &Run, elements: &[Element]) {
    let shown: BTreeSet<[u32; 3]> = with(elements, "data-king")
        .map(|crown| ["data-phase", "data-king", "data-lane"].map(|n| number(elements, crown, n)))
        .collect();
    let phases = 0..=run.rounds.len() as u32 / 3;
    let named = phases.flat_map(|phase| {
        let kings = kings(run, phase).into_keys();
        kings.map(move |king| [phase, king, king])
    });
    let on_line = |[_, king, _]: &[u32; 3]| run.scenario.numbers().contains(king);
    let named: BTreeSet<[u32; 3]> = named.filter(on_line).collect();
    assert_eq!(shown, named, "each king has its crown");
}

#[test]
fn shows_every_lane_round_decision_and_king() {
    for text in scenarios() {
        with_runs(&text, |run| {
            let page = page(run, &text);
            hold_offline(&page);
            let elements = elements(&page);
            hold_lanes(run, &elements);
            hold_decisions(run, &elements);
            hold_crowns(run, &elements);
        });
    }
}

/// At a glance, a small line has the bit of each correct one in each of its rounds.
#[test]
fn shows_all_bits_at_a_glance() {
    for text in scenarios() {
        with_runs(&text, |run| {
            let page = page(run, &text);
            for bit in [0, 1] {
                let held = |place: usize| {
                    let seen = run
                        .rounds
                        .iter()
                        .map(move |round| (round, &round.correct[place]));
                    let at_work = seen.filter(|(round, seen)| seen.state.round == round.round);
                    at_work.filter(|(_, seen)| seen.state.bit == bit).count()
                };
                let count: usize = (0..run.scenario.correct.len()).map(held).sum();
                let shown = page.matches(&format!("<text class=\"d{bit}\"")).count();
                assert_eq!(shown, count, "cells with {bit}");
            }
        });
    }
}

#[test]
fn draws_the_same_in_a_picture() {
    for text in scenarios() {
        with_runs(&text, |run| {
            let picture = picture(run);
            hold_offline(&picture);
            let elements = elements(&picture);
            assert_eq!(
                elements[0].attributes["xmlns"],
                "http://www.w3.org/2000/svg"
            );
            hold_lanes(run, &elements);
            hold_decisions(run, &elements);
            hold_crowns(run, &elements);
        });
    }
}

#[test]
fn says_what_was_refused() {
    let scenario = parse(JUNK).expect("a scenario");
    let shown = page(&run(&scenario, Rule::Engine).expect("a run"), JUNK);
    assert!(shown.contains(">refused 4<"), "noise, under 4");
    assert!(
        shown.contains("refused junk under 4 5 6"),
        "three kinds of junk in the table"
    );
    let scenario = parse(STUCK).expect("a scenario");
    let shown = page(&run(&scenario, Rule::Engine).expect("a run"), STUCK);
    assert!(
        shown.contains(">stuck, refused 8<"),
        "more than a state holds"
    );
    assert!(shown.contains("class=\"banner bad\"") && shown.contains("class=\"banner warn\""));
}

/// Who has decided still refuses junk, under 2.
#[test]
fn says_what_a_quiet_one_refused() {
    let text = "line 5=1 7=0 9=1\nfaulty 3\nround 1 3 tells 5 7: init\n\
                round 2 3 tells 9: lists 3 3 tells 5 7: garbled\n\
                round 5 3 tells 9: opinion 0\nround 9 junk for 5: noise\n";
    let scenario = parse(text).expect("a scenario");
    let run = run(&scenario, Rule::Printed).expect("a run");
    assert_eq!(run.rounds[8].correct[0].junk, [2]);
    let shown = page(&run, text);
    assert!(shown.contains(">refused 2<"), "in the lane");
    assert!(
        shown.contains("quiet<br/>refused junk under 2"),
        "in the table"
    );
}

/// At a glance, a frame for each king on the line and for each decision; and all signs of the
/// lanes that occur are explained.
#[test]
fn frames_kings_and_decisions_and_explains_signs() {
    for text in scenarios() {
        with_runs(&text, |run| {
            let page = page(run, &text);
            let phases = 0..run.rounds.len() as u32 / 3;
            let kings: Vec<u32> = phases.flat_map(|p| kings(run, p).into_keys()).collect();
            let on_line = kings
                .iter()
                .filter(|king| run.scenario.numbers().contains(king));
            let framed = page.matches("<path class=\"reign").count();
            assert_eq!(framed, on_line.count(), "kings");
            let endings = endings(run);
            let decided = endings.iter().filter(|ending| ending.decision != 2).count();
            assert_eq!(
                page.matches("<path class=\"sure\"").count(),
                decided,
                "decisions"
            );
            assert!(page.contains("How to read the lanes"));
            let apart = page.contains("It told different things to different ones.");
            assert_eq!(apart, page.matches("href=\"#apart\"").count() > 1);
            let junk = page.contains("Junk from the cable. It was refused");
            assert_eq!(junk, page.contains("refused junk under"));
        });
    }
}

#[test]
fn says_what_was_told_to_whom() {
    let text = "line 4=1 6=0 8=1 10=0\nfaulty 2\n\
                always 2 tells 4 6: bit 0 2 tells 8: bit 1 2 tells 10: silent\n";
    let scenario = parse(text).expect("a scenario");
    let shown = page(&run(&scenario, Rule::Engine).expect("a run"), text);
    let title = "<title>2 in round 3 told value 0 to 4 6; value 1 to 8; silent to 10</title>";
    let cell = shown.split(title).nth(1).expect("the box of round 3");
    let (parts, lines) = cell.split_once("class=\"lines\"").expect("its lines");
    for (class, words, whom) in [
        ("t0", "value 0", "to 4 6"),
        ("t1", "value 1", "to 8"),
        ("ts", "silent", "to 10"),
    ] {
        let start = parts
            .find(&format!("<g class=\"{class}\">"))
            .expect("a part");
        let part = parts[start..].split("</g>").next().expect("its end");
        assert!(part.contains(&format!(">{words}<")), "{words}");
        assert!(part.contains(&format!(">{whom}<")), "{words} {whom}");
    }
    assert!(parts.contains("#apart"), "it is marked");
    let lines = lines.split("</g></g>").next().expect("their end");
    let ends = ["value 0", "value 1", "silent"].map(|told| lines.matches(told).count());
    assert_eq!(ends, [2, 1, 1], "an end at each receiver");
    let words = "<td>Different things:<br/>value 0 to 4 6<br/>value 1 to 8<br/>silent to 10</td>";
    assert!(shown.contains(words), "in the table");
}

#[test]
fn takes_a_users_text_as_text() {
    let text = "# <script>alert(\"x\")</script> & 'more' \u{1b}\n# Notice: </pre><b \"\n\
                line 5=1 7=0 9=1 # </pre> & <i>\n";
    with_runs(text, |run| {
        let page = page(run, text);
        elements(&page);
        elements(&picture(run));
        let title = "&lt;script&gt;alert(&quot;x&quot;)&lt;/script&gt; &amp; 'more'";
        assert!(
            page.contains(&format!("<title>{title}</title>")),
            "the title"
        );
        assert!(page.contains(&format!("<h1>{title}</h1>")), "the heading");
        assert!(
            page.contains("# &lt;/pre&gt; &amp; &lt;i&gt;\n</pre>"),
            "the text at the end"
        );
    });
}

#[test]
fn says_who_is_on_the_line() {
    let text = "line 4=1 6=0 8=1 10=0\nfaulty 2\n";
    with_runs(text, |run| {
        let page = page(run, text);
        assert!(page.contains("<h1>A drill</h1>"), "no heading");
        let line = "A line of 5: 4 and 8 brought 1 in, 6 and 10 brought 0 in; 2 is faulty.";
        assert!(page.contains(line), "who brought what in");
        let printed = page.contains("when a king is named twice");
        assert_eq!(
            printed,
            run.rule == Rule::Printed,
            "by which rule they stop"
        );
    });
}

#[test]
fn opens_with_the_longest_line() {
    let scenario = parse(LONGEST).expect("a scenario");
    let run = run(&scenario, Rule::Engine).expect("a run");
    let page = page(&run, LONGEST);
    assert!(page.len() < LARGEST, "{} bytes", page.len());
    let elements = elements(&page);
    hold_lanes(&run, &elements);
    hold_decisions(&run, &elements);
}

/// A browser, if one is installed.
fn browser() -> Option<PathBuf> {
    let names = ["chromium", "chromium-browser", "google-chrome"];
    let path = std::env::var_os("PATH")?;
    let mut all = std::env::split_paths(&path).flat_map(|at| names.map(|name| at.join(name)));
    all.find(|file| file.is_file())
}

/// What a browser makes of a file, as markup.
fn rendered(browser: &Path, folder: &Path, file: &Path) -> String {
    let out = folder.join("rendered.html");
    let mut child = Command::new(browser)
        .args(["--headless", "--no-sandbox", "--disable-gpu", "--dump-dom"])
        .arg("--allow-file-access-from-files")
        .arg(format!(
            "--user-data-dir={}",
            folder.join("profile").display()
        ))
        .arg(format!("file://{}", file.display()))
        .stdout(File::create(&out).expect("a file for the output"))
        .stderr(Stdio::null())
        .spawn()
        .expect("the browser starts");
    let end = Instant::now() + Duration::from_secs(120);
    while child.try_wait().expect("its state").is_none() {
        if Instant::now() > end {
            child.kill().expect("it stops");
            panic!("the browser takes too long");
        }
        std::thread::sleep(Duration::from_millis(50));
    }
    fs::read_to_string(out).expect("the output")
}

/// Loads the page in a narrow frame, and writes how much wider than that it is. The page
/// itself has no script.
const NARROW: &str = r#"<!DOCTYPE html><html><body>
<iframe id="page" src="page.html" style="width: 390px; height: 800px"></iframe>
<p id="wider">not known</p>
<script>
onload = () => {
  const root = document.getElementById("page").contentDocument.documentElement;
  document.getElementById("wider").textContent = root.scrollWidth - root.clientWidth;
};
</script></body></html>"#;

#[test]
fn fits_a_narrow_screen() {
    let Some(browser) = browser() else {
        println!("not run: there is no chromium or google-chrome on the PATH");
        return;
    };
    let folder = Path::new(env!("CARGO_TARGET_TMPDIR")).join("page");
    fs::create_dir_all(&folder).expect("a folder");
    let narrow = folder.join("narrow.html");
    fs::write(&narrow, NARROW).expect("the frame");
    let scenario = parse(JUNK).expect("a scenario");
    let run = run(&scenario, Rule::Engine).expect("a run");
    let file = folder.join("page.html");
    fs::write(&file, page(&run, JUNK)).expect("the page");
    let shown = rendered(&browser, &folder, &file);
    for number in run.scenario.numbers() {
        assert!(
            shown.contains(&format!("data-lane=\"{number}\"")),
            "the lane of {number}"
        );
    }
    let shown = rendered(&browser, &folder, &narrow);
    assert!(
        shown.contains("<p id=\"wider\">0</p>"),
        "it scrolls only within: {shown}"
    );
}
