//! The engine and the one that works in the image against the reference, call by call.
//!
//! `cargo test --release -p checks --test differential -- --nocapture` prints the
//! seeds and how often each answer was given. CHECKS_SEED moves the first seed.

#![cfg(not(feature = "fault"))]

use checks::compare::ANSWERS;
use checks::edges::NAMES;
use checks::seeds::compare;
use checks::{copies, quiet, records};

#[test]
fn the_engine_and_the_one_in_the_image_agree_with_the_reference() {
    let counts = compare().unwrap_or_else(|mismatch| panic!("{mismatch}"));
    println!("{} calls, no mismatch", counts.calls());
    println!("answer of start, count: {:?}", named(&counts.start));
    println!("answer of tray, count: {:?}", named(&counts.tray));
    println!("answer of frame, count: {:?}", named(&counts.frame));
    for (name, count) in NAMES.iter().zip(counts.edges) {
        println!("{name}: {count}");
        assert!(count >= 1000, "few trays: {name}");
    }
    for (name, count) in copies::NAMES.iter().zip(counts.copies) {
        println!("{name}: {count}");
        assert!(count >= 10_000, "few trays: {name}");
    }
    for (name, count) in records::FAULTS.iter().zip(counts.faults) {
        println!("{name}: {count}");
        assert!(count >= 1000, "few images: {name}");
    }
    for (name, count) in records::STEPS.iter().zip(counts.steps) {
        println!("{name}: {count}");
        assert!(count >= 1000, "few trays: {name}");
    }
    for (name, count) in quiet::FAULTS.iter().zip(counts.said) {
        println!("{name}: {count}");
        assert!(count >= 500, "few images: {name}");
    }
    for (name, count) in quiet::ENDS.iter().zip(counts.ends) {
        println!("refused under 2, {name}: {count}");
        assert!(count >= 500, "few states: {name}");
    }
    for (name, count) in quiet::SILENCES.iter().zip(counts.silences) {
        println!("{name}: {count}");
        assert!(count >= 1000, "few trays: {name}");
    }
    assert!(counts.calls() >= 1_000_000);
    for answer in [0, 1, 3, 9] {
        assert!(counts.start[answer] >= 1000, "start: few {answer}");
    }
    for answer in 0..=8 {
        assert!(counts.tray[answer] >= 1000, "tray: few {answer}");
    }
    for answer in [0, 11, 12, 13] {
        assert!(counts.frame[answer] >= 1000, "frame: few {answer}");
    }
}

fn named(counts: &[u64; ANSWERS]) -> Vec<(usize, u64)> {
    counts
        .iter()
        .copied()
        .enumerate()
        .filter(|&(_, count)| count > 0)
        .collect()
}
