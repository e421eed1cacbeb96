//! Scenarios that are read, and mistakes in them: each has its line, what is wrong and what
//! is allowed there.

use drill::bundled;
use drill::liar::plan;
use drill::mistake::{shown, Mistake};
use drill::parse::parse;
use drill::scenario::{Deed, Junk, Order, Saying, Scenario, Whom};
use drill::write::write;

const LINE: &str = "line 5=1 7=0 9=1\nfaulty 3\n";

/// The words of the first pages on this: each form once.
const FORMS: &str = "\
# A title
# Notice: something
line 5=1 7=0 9=1
faulty 3
round 1       3 tells 5 7: init
round 2       3 tells 9: lists 3
round 3       3 tells 5: value 0    3 tells 7 9: value 1
rounds 4-8    3 tells all: garbled            # also: stale, empty, silent, twice
from 9        3 plays along                   # follows the rules honestly
seed 17       3 tells each: anything          # a random liar, the same each time
";

/// The one mistake of a text.
fn mistake(text: &str) -> Mistake {
    let mut mistakes = parse(text).expect_err(text);
    assert_eq!(mistakes.len(), 1, "{text}: {mistakes:?}");
    mistakes.remove(0)
}

/// The one mistake of orders for a line of four, which stand from line 3 on.
fn wrong(orders: &str, what: &str, allowed: &str) {
    let text = format!("{LINE}{orders}\n");
    let mistake = mistake(&text);
    assert_eq!(mistake.line, 3, "{orders}: {mistake:?}");
    assert!(mistake.what.contains(what), "{orders}: {}", mistake.what);
    assert!(
        mistake.allowed.contains(allowed),
        "{orders}: {}",
        mistake.allowed
    );
}

/// The same for each row: orders, what is wrong, what is allowed.
fn all_wrong(rows: &str) {
    for row in rows.lines().filter(|row| !row.is_empty()) {
        let cells: Vec<&str> = row.split(" | ").collect();
        let [orders, what, allowed] = cells[..] else {
            panic!("three cells: {row}");
        };
        wrong(orders, what, allowed);
    }
}

/// The orders of a text for that line.
fn orders(orders: &str) -> Vec<Order> {
    let text = format!("{LINE}{orders}\n");
    let read = parse(&text).unwrap_or_else(|m| panic!("{}", shown("text", &text, &m)));
    read.orders
}

/// What is told by the one order of a text.
fn told(text: &str) -> Vec<Saying> {
    let mut orders = orders(text);
    assert_eq!(orders.len(), 1, "{text}");
    match orders.remove(0).deed {
        Deed::Tells { what, .. } => what,
        deed => panic!("{deed:?}"),
    }
}

/// What 3 is to tell one in a round, and in which line of the text that stands.
fn told_in(scenario: &Scenario, round: u32, to: u32) -> Option<(usize, Vec<Saying>)> {
    let orders = scenario.in_round(round);
    let mut latest = orders.iter().rev();
    latest.find_map(|order| Some((order.line, order.told(3, to)?.to_vec())))
}

#[test]
fn every_form_reads() {
    let scenario = parse(FORMS).expect("the forms");
    assert_eq!(scenario.heading, ["A title", "Notice: something"]);
    assert_eq!(scenario.orders.len(), 7);
    let last = &scenario.orders[6];
    assert_eq!((last.seed, last.rounds.clone()), (17, 1..=194));
    assert_eq!(told_in(&scenario, 3, 7), Some((10, vec![Saying::Anything])));
}

#[test]
fn what_is_told() {
    assert_eq!(
        told("round 2 3 tells all: lists 7 5 1000-1002"),
        [Saying::Lists(vec![5, 7, 1000, 1001, 1002])]
    );
    assert_eq!(
        told("round 2 3 tells all: lists nothing"),
        [Saying::Lists(vec![])]
    );
    assert_eq!(
        told("round 4 3 tells 5: propose none"),
        [Saying::Propose(2)]
    );
    assert_eq!(
        told("round 5 3 tells 5: opinion 1"),
        [Saying::Opinion(1, vec![])]
    );
    assert_eq!(
        told("round 8 3 tells 5: opinion none lists 3 5"),
        [Saying::Opinion(2, vec![3, 5])]
    );
    assert_eq!(told("always 3 tells 5: repeats 7"), [Saying::Repeats(7)]);
    assert_eq!(
        told("always 3 tells 5: bytes 0000 03 ff"),
        [Saying::Bytes(vec![0, 0, 3, 255])]
    );
    assert_eq!(
        told("always 3 tells 5: bit 0 and bit 1 and garbled"),
        [Saying::Bit(0), Saying::Bit(1), Saying::Garbled]
    );
    assert_eq!(told("from 2 3 plays along"), [Saying::Honest]);
}

#[test]
fn whom_it_is_told() {
    let whom = |text: &str| match &orders(text)[0].deed {
        Deed::Tells { whom, .. } | Deed::Junk { whom, .. } => whom.clone(),
    };
    assert_eq!(whom("always 3 tells all: silent"), Whom::All);
    assert_eq!(whom("always 3 tells each: anything"), Whom::Each);
    assert_eq!(
        whom("always 3 tells all but 5: silent"),
        Whom::These([7, 9].into())
    );
    assert_eq!(
        whom("always 3 tells 5-8: silent"),
        Whom::These([5, 7].into())
    );
    assert_eq!(whom("round 2 junk for 9: noise"), Whom::These([9].into()));
}

/// A number before `tells` begins the next deed, though a list or bytes could go on.
#[test]
fn deeds_side_by_side() {
    let orders = orders(
        "round 2 3 tells 5: lists 3 5 3 tells 7: bytes 00 01 3 tells 9: silent junk for 5: old",
    );
    let what: Vec<Deed> = orders.into_iter().map(|order| order.deed).collect();
    let tells = |to: u32, what: Saying| Deed::Tells {
        who: Some(3),
        whom: Whom::These([to].into()),
        what: vec![what],
    };
    let junk = Deed::Junk {
        whom: Whom::These([5].into()),
        junk: Junk::Old,
    };
    let expected = [
        tells(5, Saying::Lists(vec![3, 5])),
        tells(7, Saying::Bytes(vec![0, 1])),
        tells(9, Saying::Silent),
        junk,
    ];
    assert_eq!(what, expected);
}

#[test]
fn a_later_order_counts() {
    let text = format!("{LINE}always 3 plays along\nrounds 4-5 3 tells 5: garbled\n");
    let scenario = parse(&text).expect("a scenario");
    let said = |round, to| told_in(&scenario, round, to).map(|(line, _)| line);
    assert_eq!(said(4, 5), Some(4));
    assert_eq!(said(4, 7), Some(3));
    assert_eq!(said(6, 5), Some(3));
    assert_eq!(told_in(&parse(LINE).expect("a line"), 1, 5), None);
}

#[test]
fn mistakes_on_who_is_there() {
    let wrong = |text: &str, line: usize, what: &str| {
        let mistake = mistake(text);
        assert_eq!(mistake.line, line, "{text}: {mistake:?}");
        assert!(mistake.what.contains(what), "{text}: {}", mistake.what);
        assert!(!mistake.allowed.is_empty());
    };
    wrong("", 0, "nobody on the line is correct");
    wrong("faulty 3\n", 0, "nobody on the line is correct");
    wrong("line\n", 1, "nobody is named");
    wrong("line 5=1 7=0 5=0\n", 1, "5 is on the line twice");
    wrong("line 5=1 7=0\n\nfaulty 7\n", 3, "7 is on the line twice");
    wrong("line 5-9=1 7=0\n", 1, "7 is on the line twice");
    wrong("line 5=1\nfaulty 3=1\n", 2, "a faulty one brings no bit in");
    wrong("line 5=1 7\n", 1, "`7` brings no bit in");
    wrong("line 5=2\n", 1, "`2` is no bit");
    wrong("line 0=1\n", 1, "`0` is no number");
    wrong("line 4294967296=1\n", 1, "is no number");
    wrong("line five=1\n", 1, "`five` is no number");
    wrong("line 9-5=1\n", 1, "9 to 5 is backwards");
    wrong("line 1-64=1\nfaulty 65\n", 2, "one more than 64");
    wrong("line 1-4000000000=1\n", 1, "one more than 64");
    wrong("line 5=1\nlien 7=0\n", 2, "no line begins with `lien`");
    wrong("LINE 5=1\n", 1, "no line begins with `LINE`");
    wrong("line 5=1,7=0\n", 1, "`1,7=0` is no bit");
    wrong("line 5=1\nfaulty 3,4\n", 2, "no commas");
    wrong("line 5=1\n3 tells 5: init\n", 2, "no line begins with `3`");
    wrong(
        "line 5=1\nround 1 3 tells 5: init\n",
        2,
        "3 is not on the line",
    );
}

#[test]
fn mistakes_on_rounds() {
    all_wrong(
        "
round | the round is missing | round 3
round x 3 tells 5: init | `x` is no number | round 3
round 0 3 tells 5: init | `0` is no number | 1 to 194
from 3 to 8 3 plays along | from has no end | rounds 3-8
round 4-8 3 tells 5: silent | these are several | rounds 4-8
rounds 8-4 3 tells 5: silent | backwards | rounds 4-8
round 195 3 tells 5: silent | nothing is sent | 1 to 194
from 200 3 plays along | nothing is sent | 1 to 194
seed 3x 3 tells 5: anything | `3x` is no seed | seed 17
seed | the seed is missing | seed 17
round 3 | it is not said what is done | 3 tells 5 7: bit 0
",
    );
}

#[test]
fn mistakes_on_deeds() {
    all_wrong(
        "
round 3 5 tells 7: value 0 | 5 is correct | 3
round 3 4 tells 7: value 0 | 4 is not on the line | 3
round 3 card tells 7: value 0 | `card` is unknown here | 3
round 3 3 says 7: value 0 | after 3 stands `says` | tells, plays along
round 3 3 plays 7 | after plays stands `7` | plays along
round 3 3 plays along with 2 | `2` is no bit | 0, 1
round 3 3 plays along with | the bit is missing | 0, 1
always 3 plays along with 0 3 plays along with 1 | was to be started with 0 | one bit
round 3 3 tells : value 0 | nobody is named | 5 7 9
round 3 3 tells 5 value 0 | `value` is no number | then a colon
round 3 3 tells all value 0 | the colon is missing | then a colon
round 3 3 tells 3: value 0 | 3 is nobody else on the line | 5 7 9
round 3 3 tells 4: value 0 | 4 is nobody else on the line | 5 7 9
round 3 3 tells all but 5-9: value 0 | nobody is left | 5 7 9
round 3 3 tells 5 5: value 0 | 5 is named twice | 5 7 9
round 3 junk 5: noise | after junk stands `5` | junk for
round 3 junk for 3: noise | 3 is nobody | correct ones (5 7 9)
round 3 junk for 5: dirt | `dirt` is no junk | noise
round 3 junk for 5: | which junk | noise
round 3 junk for 5: noise again | after the junk stands `again` | the end of the line
",
    );
}

#[test]
fn mistakes_on_what_is_told() {
    all_wrong(
        "
round 3 3 tells 5: | it is not said what is told | value 0, value 1
round 3 3 tells 5: valu 0 | `valu` is nothing that can be told | value 0, value 1
round 3 3 tells 5: value 2 | `2` is no bit | 0, 1
round 3 3 tells 5: value | the bit is missing | 0, 1
round 4 3 tells 5: propose maybe | `maybe` is no bit | 0, 1, none
round 4 3 tells 5: value 0 | round 4 is for propose, not for `value 0` | propose 0
rounds 3-5 3 tells 5: value 0 | round 4 is for propose | bit 0
round 3 3 tells 5: lists 3 | round 3 is for value, not for `lists 3` | value 0
round 2 3 tells 5: lists | the numbers are missing | lists nothing
round 2 3 tells 5: lists 0 | `0` is no number | lists nothing
round 2 3 tells 5: lists 3 3 | 3 is listed twice | lists nothing
round 2 3 tells 5: lists 1-65 | too many numbers | 64
round 3 3 tells 5: repeats 3 | `3` is no correct one | 5 7 9
round 3 3 tells 5: repeats | it is not said whom | 5 7 9
round 3 3 tells 5: bytes | the bytes are missing | hex
round 3 3 tells 5: bytes 0g | `0g` is not hex | hex
round 3 3 tells 5: bytes 012 | `012` is not hex | hex
round 3 3 tells 5: bytes 00*9999999999 | is not hex | hex
round 3 3 tells 5: value 0 value 1 | stands `value` | and with another frame
round 3 3 tells 5: silent and value 0 | silent is no frame | silent alone
round 3 3 tells 5: twice and twice | too many frames | at most 3
",
    );
    let long = format!("round 3 3 tells 5: bytes {}", "00".repeat(321));
    wrong(&long, "too many bytes", "320");
}

/// A mistake for each line that has one, each with a mark under its words.
#[test]
fn all_mistakes_are_shown() {
    let text =
        format!("{LINE}round 3 3 tells 5: valu 0\nround 4 3 plays along\nround 5 7 plays along\n");
    let mistakes = parse(&text).expect_err("mistakes");
    let expected = "\
x.txt, line 3: `valu` is nothing that can be told
    round 3 3 tells 5: valu 0
                       ^^^^
  allowed here: value 0, value 1, bit 0, bit 1, honest, garbled, stale, cut, empty, silent, twice, repeats 5, anything, bytes 00 ff; or two with and
x.txt, line 5: 7 is correct, and does as the rules say
    round 5 7 plays along
            ^
  allowed here: a faulty one (3) and what it does: 3 tells 5 7: bit 0, 3 plays along; or junk for 5: noise
";
    assert_eq!(shown("x.txt", &text, &mistakes), expected);
}

/// No text makes the reader fail: words of all kinds in any order, and bytes of any kind.
#[test]
fn any_text_is_read_or_refused() {
    let words =
        "line faulty round rounds from always seed 3 5 7=1 4-8 9-1 : tells plays along with \
                 lists value bytes and junk for all but opinion none # = - é \u{1b}[31m \
                 99999999999999999999";
    let words: Vec<&str> = words.split(' ').chain(["\n", "\t"]).collect();
    let mut random = checks::random::Random::new(1);
    let mut read = 0;
    for _ in 0..20_000 {
        let count = random.below(12);
        let text: Vec<&str> = (0..count).map(|_| random.pick(&words)).collect();
        let text = format!(
            "{}{}",
            random.pick(&["", LINE]),
            text.join(random.pick(&[" ", "", "  "]))
        );
        match parse(&text) {
            Ok(_) => read += 1,
            Err(mistakes) => assert!(!shown("text", &text, &mistakes).contains('\u{1b}')),
        }
    }
    assert!((1..20_000).contains(&read));
}

/// The same but for the lines of the text.
fn without_lines(mut scenario: Scenario) -> Scenario {
    scenario.orders.iter_mut().for_each(|order| order.line = 0);
    scenario
}

#[test]
fn what_is_written_reads_as_the_same() {
    let again = |scenario: &Scenario| {
        let text = write(scenario);
        let read = parse(&text).unwrap_or_else(|m| panic!("{}", shown("text", &text, &m)));
        assert_eq!(
            without_lines(read),
            without_lines(scenario.clone()),
            "{text}"
        );
    };
    let own = format!("{LINE}always 3 plays along with 1\nrounds 2-4 seed 9 faulty tell each: anything and empty\n");
    let texts = bundled::ALL
        .iter()
        .map(|(_, text)| *text)
        .chain([FORMS, &own]);
    for text in texts {
        again(&parse(text).expect(text));
    }
    let line = parse("line 5=1 7-9=0 11=1 4294967295=1\nfaulty 1 3\n").expect("a line");
    for seed in 0..200 {
        again(&Scenario {
            orders: plan(seed, &line),
            ..line.clone()
        });
    }
}
