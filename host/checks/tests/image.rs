//! docs/IMAGE.md: its calls are the header's, its table is the image, and an image is
//! sound where the page says so. (How much stack a call takes: `programs.rs`.)

use std::collections::BTreeSet;
use std::fs;

use checks::calls::{Calls, Engine, Reference};
use checks::fields::{put, Fields, ECHOES, FIRST_ROUNDS, HEARD, IMAGE_LEN, RESERVED};
use checks::{c, page};

/// Text with each run of spaces and line ends as one space.
fn joined(text: &str) -> String {
    text.split_whitespace().collect::<Vec<_>>().join(" ")
}

/// Each call that a text names, with a bracket behind it.
fn calls_in(text: &str) -> Vec<&str> {
    let words = text.split(|c: char| !(c.is_ascii_alphanumeric() || "_(".contains(c)));
    let names = words.filter_map(|word| word.split_once('(').map(|(name, _)| name));
    names
        .filter(|name| name.starts_with("controller_"))
        .collect()
}

#[test]
fn the_calls_are_those_of_the_header() {
    let header = fs::read_to_string(c::root().join("include/controller.h")).expect("the header");
    let page = page::text("IMAGE.md");
    let block = page.split("```c\n").nth(1).expect("a block of calls");
    let block = block.split("```").next().expect("its end");
    for line in block.lines().filter(|line| !line.is_empty()) {
        assert!(joined(&header).contains(line), "not in the header: {line}");
    }
    let named: BTreeSet<&str> = calls_in(block).into_iter().collect();
    assert_eq!(named, calls_in(&header).into_iter().collect());
    let rows = page::rows(&page, "## The calls");
    let answered: BTreeSet<&str> = rows.iter().flat_map(|row| row[0].split('`')).collect();
    assert!(named.is_subset(&answered), "the table has each call");
}

#[test]
fn the_table_has_every_byte_of_an_image() {
    let rows = page::rows(&page::text("IMAGE.md"), "## The image");
    let mut end = 0;
    for row in &rows {
        if let (Ok(offset), Ok(bytes)) = (row[0].parse::<usize>(), row[1].parse::<usize>()) {
            assert_eq!(offset, end, "{row:?}");
            end += bytes;
            match offset {
                FIRST_ROUNDS => assert!(row[2].starts_with("first rounds")),
                RESERVED => assert_eq!(row[2], "reserved"),
                _ => (),
            }
        }
    }
    assert_eq!(end, IMAGE_LEN);
}

/// Controller 7 in round 2, with these heard.
fn image(heard: &[u32], first_rounds: &[u8]) -> Vec<u8> {
    let state = Fields {
        number: 7,
        round: 2,
        bit: 1,
        said: 2,
        strong: 0,
        king: 0,
        decision: 2,
        heard: heard.to_vec(),
        candidates: Vec::new(),
        echoes: vec![7],
        first_rounds: first_rounds.to_vec(),
    };
    state.image()
}

/// Whether both take an image as sound: both show its round, or neither does.
fn sound(image: &[u8]) -> bool {
    let shown = Engine::answers(image)[1];
    assert_eq!(shown, Reference::answers(image)[1]);
    assert_eq!(Engine::record(image), Reference::record(image));
    shown != 0
}

#[test]
fn first_rounds_are_sound_as_the_page_says() {
    for round in 0..=255 {
        let other = (1..=194).contains(&round);
        assert_eq!(sound(&image(&[5, 7, 9], &[round, 0, 1])), other, "{round}");
        assert_eq!(sound(&image(&[5, 7, 9], &[1, 0, round])), other, "{round}");
        let own = sound(&image(&[5, 7, 9], &[1, round, 1]));
        assert_eq!(own, round == 0, "{round}");
        for place in 3..64 {
            let mut unused = image(&[5, 7, 9], &[1, 0, 1]);
            unused[FIRST_ROUNDS + place] = round;
            assert_eq!(sound(&unused), round == 0, "{round} at {place}");
        }
    }
    for at in RESERVED..IMAGE_LEN {
        let mut reserved = image(&[5, 7, 9], &[1, 0, 1]);
        reserved[at] = 1;
        assert!(!sound(&reserved), "1 at {at}");
    }
}

/// The bits said that the page allows in a row of its table.
fn allowed(cell: &str, own: u8) -> Vec<u8> {
    match cell {
        "the own bit" => vec![own],
        _ => numbers_of(cell),
    }
}

/// The numbers that a cell lists.
fn numbers_of(cell: &str) -> Vec<u8> {
    let words = cell.split(|c: char| !c.is_ascii_digit());
    words.filter_map(|word| word.parse().ok()).collect()
}

/// Whether a round is one of those that a cell names.
fn has_round(cell: &str, round: u32) -> bool {
    match cell {
        "any" => true,
        "1 or 2" => round <= 2,
        "3 + 3r" => round > 2 && round % 3 == 0,
        "4 + 3r or 5 + 3r" => round > 2 && round % 3 != 0,
        _ => panic!("no such rounds: {cell}"),
    }
}

#[test]
fn the_bit_said_is_sound_as_the_page_says() {
    let rows = page::rows(&page::text("IMAGE.md"), "## The image");
    let head = rows.iter().position(|row| row[0] == "decision");
    let rows = &rows[head.expect("the table of bits said") + 2..];
    let mut counts = [0; 2];
    for round in (1..=8).chain([194, 195]) {
        for bits in 0..(2 * 3 * 5) {
            let (bit, decision, said) = (bits % 2, bits / 2 % 3, bits / 6);
            let fits = |row: &&Vec<String>| {
                numbers_of(&row[0]).contains(&decision) && has_round(&row[1], round)
            };
            let fitting: Vec<_> = rows.iter().filter(fits).collect();
            assert_eq!(fitting.len(), 1, "one row for each decision and round");
            let expected = allowed(&fitting[0][2], bit).contains(&said);
            let mut image = image(&[5, 7, 9], &[1, 0, 1]);
            put(&mut image, 4, round);
            (image[8], image[9], image[15]) = (bit, said, decision);
            if round == 1 {
                image[ECHOES..FIRST_ROUNDS].fill(0);
            }
            assert_eq!(sound(&image), expected, "{round} {bit} {decision} {said}");
            counts[usize::from(expected)] += 1;
        }
    }
    println!("bits said: {counts:?} not sound and sound");
    assert!(counts[0] > 100 && counts[1] > 50);
}

#[test]
fn an_image_without_first_rounds_is_sound_only_alone() {
    assert!(sound(&image(&[7], &[0])));
    for heard in [[5, 7], [7, 9]] {
        let mut older = image(&heard, &[0, 0]);
        assert!(!sound(&older));
        let answer = Engine::tray(&mut older, &[0, 0, 0, 2, 0, 0, 0, 0], &mut [0; 264], &mut 0);
        assert_eq!(answer, 1);
    }
}

#[test]
fn an_image_with_big_endian_numbers_is_not_sound() {
    let mut older = image(&[5, 7, 9], &[1, 0, 1]);
    assert!(sound(&older));
    let lists = (HEARD..FIRST_ROUNDS).step_by(4);
    for at in [0, 4, 11].into_iter().chain(lists) {
        older[at..at + 4].reverse();
    }
    assert!(!sound(&older));
}
