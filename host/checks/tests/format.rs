//! The bytes of docs/FORMAT.md: what the page says is what the engine and the
//! reference do.

#![cfg(not(feature = "fault"))]

use std::collections::BTreeSet;

use checks::calls::{Calls, Engine, Reference};
use checks::fields::{Fields, IMAGE_LEN};
use checks::links::{busiest, limit, Sender, BUSIEST};
use checks::packing::{
    frame, kind_of, pack, Entry, HEADER, INIT, MAX_FRAME, NONE, PROPOSE, ROSTER, TURN, VALUE,
};
use checks::page::{self, Line};

const MARK: u8 = 0xA5;

/// What a call is lent and what it gave, as the page's lines go on.
struct Host {
    image: Vec<u8>,
    image_len: usize,
    out: Vec<u8>,
    length: usize,
    answer: u8,
    /// The image as the last call found it.
    before: Vec<u8>,
    /// What the page has yet to say of the last call.
    unsaid: BTreeSet<&'static str>,
}

impl Host {
    fn new() -> Host {
        Host {
            image: vec![MARK; IMAGE_LEN],
            image_len: IMAGE_LEN,
            out: vec![MARK; 264],
            length: 0,
            answer: 0,
            before: Vec::new(),
            unsaid: BTreeSet::new(),
        }
    }

    fn line<C: Calls>(&mut self, line: &Line) {
        match line {
            Line::Start { number, bit } => {
                self.call(|image, out, length| C::start(*number, *bit, image, out, length));
            }
            Line::Tray(tray) => {
                self.call(|image, out, length| C::tray(image, tray, out, length));
            }
            Line::Frame(bytes) => self.sent(bytes),
            Line::State(text) => {
                assert!(self.unsaid.remove("state"));
                assert_eq!(&described::<C>(&self.image), text);
            }
            Line::Refused(refusal) => self.refused(*refusal),
            Line::ImageLen(length) => self.image_len = *length,
            Line::OutLen(length) => self.out.resize(*length, MARK),
            Line::ImageByte { at, byte } => self.image[*at] = *byte,
        }
    }

    fn call(&mut self, call: impl Fn(&mut [u8], &mut [u8], &mut usize) -> u8) {
        assert!(self.unsaid.is_empty(), "unsaid: {:?}", self.unsaid);
        self.before = self.image.clone();
        self.out.fill(MARK);
        self.length = 1;
        let image = &mut self.image[..self.image_len];
        self.answer = call(image, &mut self.out, &mut self.length);
        self.unsaid = match self.answer {
            0 => BTreeSet::from(["frame", "state"]),
            _ => BTreeSet::from(["refusal"]),
        };
    }

    /// The frame stands in front of the output, which keeps every byte behind it.
    fn sent(&mut self, bytes: &[u8]) {
        assert!(self.unsaid.remove("frame"), "refused {}", self.answer);
        assert_eq!(&self.out[..self.length], bytes);
        assert!(self.out[self.length..].iter().all(|&byte| byte == MARK));
    }

    fn refused(&mut self, refusal: u8) {
        assert_eq!(self.answer, refusal);
        assert!(self.unsaid.remove("refusal"));
        assert_eq!(self.length, 0);
        assert!(self.image == self.before, "the image is kept");
        assert!(self.out.iter().all(|&byte| byte == MARK));
    }
}

/// A state as the page writes it; whom it heard when is what the calls show.
fn described<C: Calls>(image: &[u8]) -> String {
    let s = Fields::of(image);
    let (heard, first_rounds): (Vec<u32>, Vec<u32>) = C::record(image).into_iter().unzip();
    assert_eq!(heard, s.heard);
    let list = |numbers: &[u32]| match numbers {
        [] => "-".to_string(),
        _ => spaced(numbers),
    };
    format!(
        "round {}, bit {}, said {}, strong {}, king {}, decision {}, heard {}, first rounds {}, \
         candidates {}, echoes {}",
        s.round,
        s.bit,
        s.said,
        s.strong,
        s.king,
        s.decision,
        list(&heard),
        list(&first_rounds),
        list(&s.candidates),
        list(&s.echoes)
    )
}

fn spaced(numbers: &[u32]) -> String {
    let texts: Vec<String> = numbers.iter().map(u32::to_string).collect();
    texts.join(" ")
}

fn run<C: Calls>(blocks: &[Vec<Line>]) {
    for block in blocks {
        let mut host = Host::new();
        for line in block {
            println!("{line:x?}");
            host.line::<C>(line);
        }
        assert!(host.unsaid.is_empty(), "unsaid: {:?}", host.unsaid);
    }
}

#[test]
fn the_worked_calls_give_what_the_page_says() {
    let blocks = page::blocks(&page::text("FORMAT.md"));
    run::<Engine>(&blocks);
    run::<Reference>(&blocks);
    let refusal = |line: &Line| match line {
        Line::Refused(refusal) => Some(*refusal),
        _ => None,
    };
    let refusals: BTreeSet<u8> = blocks.iter().flatten().filter_map(refusal).collect();
    assert_eq!(refusals, BTreeSet::from([1, 2, 3, 4, 5, 6, 9]));
}

/// The tray that the page takes apart is the first one that it hands over.
#[test]
fn the_table_of_a_tray_is_the_tray_handed_over() {
    let text = page::text("FORMAT.md");
    let mut table: Vec<u8> = Vec::new();
    for row in page::rows(&text, "## A tray") {
        if let Some(bytes) = page::bytes_in(&row[1]) {
            assert_eq!(row[0].parse(), Ok(table.len()), "{row:?}");
            table.extend(bytes);
        }
    }
    let blocks = page::blocks(&text);
    let first = blocks.iter().flatten().find_map(|line| match line {
        Line::Tray(tray) => Some(tray),
        _ => None,
    });
    assert_eq!(Some(&table), first);
}

#[test]
fn the_frames_are_read_as_the_page_says() {
    let mut kinds = BTreeSet::new();
    let mut answers = BTreeSet::new();
    for row in page::rows(&page::text("FORMAT.md"), "## A frame") {
        let Some(bytes) = page::bytes_in(&row[0]) else {
            continue;
        };
        let round: u32 = row[1].parse().expect("a round");
        let (says, _) = row[2].split_once(':').unwrap_or((&row[2], ""));
        assert_eq!(read_as(&bytes, round), says, "{row:?}");
        let answer = Engine::frame(&bytes, round);
        assert_eq!(answer, void_number(says), "{row:?}");
        // No state waits for a tray of a round past the last but one.
        if round < 195 {
            let said = bytes.get(5).map_or(0, |&bit| bit.min(1));
            let counts = next(&bytes, round, said) != next(&[], round, said);
            assert_eq!(counts, answer == 0, "{row:?}");
        }
        if answer == 0 {
            kinds.insert(kind_of(round));
        }
        answers.insert(answer);
    }
    assert_eq!(kinds, BTreeSet::from([INIT, ROSTER, VALUE, PROPOSE, TURN]));
    assert_eq!(answers, BTreeSet::from([0, 11, 12, 13]));
}

/// The figures for any trays are those of the busiest controller.
#[test]
fn the_link_use_is_what_the_page_says() {
    let mut sender = Sender::<Engine>::start(BUSIEST, 1);
    let mut lengths = vec![sender.sent];
    lengths.extend((1..=194).map(|round| sender.tray(&busiest(round), MAX_FRAME).1));
    let count = |length| lengths.iter().filter(|&&l| l == length).count();
    let [none, plain, full] = [0, HEADER, MAX_FRAME].map(count);
    assert_eq!((none, plain + full), (1, 194));
    let rows = page::rows(&page::text("FORMAT.md"), "## Link use");
    let said: Vec<usize> = rows.iter().filter_map(|row| figure(&row[1])).collect();
    assert_eq!(
        said[..5],
        [HEADER, MAX_FRAME, plain + full, full, sender.sent]
    );
}

/// What the page has of lines of several sizes.
#[test]
fn the_link_use_of_lines_is_what_the_page_says() {
    let mut sizes = Vec::new();
    for row in page::rows(&page::text("FORMAT.md"), "## Link use") {
        let Some(n) = figure(&row[0]) else {
            continue;
        };
        let [one, whole] = [frame(2, NONE, &vec![0; n]).len(), limit(n)];
        let said: Option<Vec<usize>> = row[1..].iter().map(|cell| figure(cell)).collect();
        assert_eq!(said, Some(vec![one, whole, n * one, n * whole]), "{row:?}");
        sizes.push(n);
    }
    assert_eq!(sizes, [4, 8, 16, 32, 64]);
}

/// A number with commas between thousands, if a cell is one.
fn figure(cell: &str) -> Option<usize> {
    cell.replace(',', "").parse().ok()
}

/// The number that the page gives for void bytes; 0 for a frame.
fn void_number(says: &str) -> u8 {
    let number = says.strip_prefix("void ");
    number.map_or(0, |number| number.parse().expect("a number"))
}

/// What the reference reads, as the page writes it.
fn read_as(bytes: &[u8], round: u32) -> String {
    let frame = match reference::frame::read(bytes, round) {
        Ok(frame) => frame,
        Err(void) => return format!("void {}", void as u8),
    };
    let bit = frame.bit;
    let numbers = match frame.numbers().collect::<Vec<u32>>() {
        none if none.is_empty() => "no number".to_string(),
        some => spaced(&some),
    };
    match kind_of(round) {
        INIT => "init".to_string(),
        ROSTER => format!("roster of {numbers}"),
        VALUE => format!("value {bit}"),
        PROPOSE => format!("propose {bit}"),
        _ => format!("turn {bit} with {numbers}"),
    }
}

/// What the engine makes of a frame from 5. In the state, 5 is king, and the bit
/// said is the one needed for two thirds of the values, or else not the own one: so
/// a frame that says something makes a difference.
fn next(bytes: &[u8], round: u32, said: u8) -> Vec<u8> {
    let value = kind_of(round) == VALUE;
    let bit = if value { said } else { 1 - said };
    let mut image = Fields {
        number: 7,
        round,
        bit,
        said: if value { bit } else { NONE },
        strong: 0,
        king: 5,
        decision: 2,
        heard: vec![5, 7],
        candidates: if round > 2 { vec![5, 7] } else { Vec::new() },
        echoes: if round > 1 { vec![7] } else { Vec::new() },
        first_rounds: vec![1, 0],
    }
    .image();
    let entry = Entry {
        sender: 5,
        bytes: bytes.to_vec(),
    };
    let answer = Engine::tray(&mut image, &pack(round, &[entry]), &mut [0; 264], &mut 0);
    assert_eq!(answer, 0);
    image
}
