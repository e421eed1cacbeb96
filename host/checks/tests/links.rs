//! How many bytes one controller sends, whatever trays it gets: document 02, A13.

#![cfg(not(feature = "fault"))]

use checks::calls::{Calls, Engine, Reference};
use checks::links::{busiest, limit, Sender, BUSIEST};
use checks::packing::{HEADER, MAX_FRAME};
use checks::random::Random;
use checks::trays;

const RUNS: u64 = 2_000;

/// Each round's tray comes after bytes that are no tray, then with too little room, then
/// with room; and so it goes on after the decision.
fn meets_the_limit<C: Calls>(bit: u8) {
    let mut sender = Sender::<C>::start(BUSIEST, bit);
    for round in 1..=194 {
        let tray = busiest(round);
        assert_eq!(sender.tray(&[255; 9], MAX_FRAME), (4, 0));
        assert_eq!(sender.tray(&tray, MAX_FRAME - 1), (3, 0));
        let sent = match round {
            194 => 0,
            _ if round % 3 == 1 => MAX_FRAME,
            _ => HEADER,
        };
        assert_eq!(sender.tray(&tray, MAX_FRAME), (0, sent), "round {round}");
    }
    assert!(!sender.fields().undecided());
    assert_eq!(sender.tray(&busiest(195), MAX_FRAME), (2, 0));
    assert_eq!([sender.sent, limit(64)], [18_192; 2]);
}

/// Every byte of the limit is used.
#[test]
fn the_limit_is_met() {
    for bit in [0, 1] {
        meets_the_limit::<Engine>(bit);
        meets_the_limit::<Reference>(bit);
    }
}

/// How many trays were worked and refused, and how much was sent.
#[derive(Default)]
struct Counts {
    worked: u64,
    refused: u64,
    sent: Vec<usize>,
}

/// The busiest trays, some of them, or all, replaced by others, with any room for output;
/// after the decision some more.
fn disturbed(seed: u64, counts: &mut Counts) {
    let mut random = Random::new(seed);
    let pool: Vec<u32> = (1..=150).collect();
    let replaced = random.pick(&[1, 10, 100]);
    let mut sender = Sender::<Engine>::start(BUSIEST, random.bit());
    let mut later = 0;
    while later < 10 {
        let state = sender.fields();
        later += usize::from(!state.undecided());
        let tray = match random.percent(replaced) {
            true => trays::tray(&mut random, &pool, &state),
            false => busiest(state.round),
        };
        let room = random.pick(&[MAX_FRAME - 1, MAX_FRAME, 300]);
        match sender.tray(&tray, room) {
            (0, _) => counts.worked += 1,
            (_, sent) => {
                assert_eq!(sent, 0, "seed {seed}");
                counts.refused += 1;
            }
        }
        assert!(sender.sent <= limit(64), "seed {seed}: {}", sender.sent);
    }
    counts.sent.push(sender.sent);
}

#[test]
fn no_trays_make_it_send_more() {
    let mut counts = Counts::default();
    for seed in 0..RUNS {
        disturbed(seed, &mut counts);
    }
    counts.sent.sort_unstable();
    let [least, middle, most] = [0, counts.sent.len() / 2, counts.sent.len() - 1];
    println!(
        "{RUNS} lists, {} trays worked, {} refused; bytes sent: {} to {}, half of them up to {}",
        counts.worked, counts.refused, counts.sent[least], counts.sent[most], counts.sent[middle]
    );
    assert!(counts.sent[least] < 1_000 && counts.sent[most] > 17_000);
    assert!(counts.refused > 10_000);
}
