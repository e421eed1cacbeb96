//! Whole networks of controllers on the compiled engine, against a rushing adversary.
//!
//! `cargo test --release -p checks --test networks -- --nocapture` prints the seeds.
//! CHECKS_SEED moves the first one.

use checks::adversary::Rushing;
use checks::calls::{Calls, Engine};
use checks::links::limit;
use checks::network::{Adversary, Network, Seen, View};
use checks::packing::{frame, Entry, NONE};
use checks::seeds::{broken, first_seed, run, MakeAdversary};
use std::ops::RangeInclusive;

/// Runs with as many faulty ones as may be and with fewer, for some sizes, each with
/// a seed of its own.
fn run_all(sizes: RangeInclusive<usize>, runs: u64, make: MakeAdversary) -> Vec<Seen> {
    let mut all = Vec::new();
    let mut seed = first_seed();
    let last = seed + sizes.clone().count() as u64 * runs - 1;
    println!("sizes {sizes:?}, {runs} runs each, seeds {seed} to {last}");
    for size in sizes {
        let most = (size - 1) / 3;
        for _ in 0..runs {
            let faulty = if seed % 4 == 0 { most / 2 } else { most };
            let seen = run::<Engine>(size, faulty, seed, make)
                .unwrap_or_else(|e| panic!("{size} with {faulty} faulty, seed {seed}: {e}"));
            all.push(seen);
            seed += 1;
        }
    }
    println!(
        "more phases of one mind than correct ones in {} of {} runs; one sent at most {} bytes",
        more_minds(&all),
        all.len(),
        all.iter().map(|seen| seen.most_sent).max().unwrap_or(0)
    );
    all
}

/// In how many runs all correct ones named the same correct king in more phases than there
/// are correct ones.
fn more_minds(all: &[Seen]) -> usize {
    all.iter().filter(|seen| seen.more_minds > 0).count()
}

/// Runs against faulty ones of all kinds. Also makes sure that they did bring something
/// about.
fn run_sizes(sizes: RangeInclusive<usize>, runs: u64) {
    let all = run_all(sizes.clone(), runs, Rushing::new);
    let kings = all.iter().filter(|seen| seen.kings_differed).count();
    let late = all.iter().filter(|seen| seen.last_join > 3).count();
    let divided = all.iter().filter(|seen| seen.last_divided >= 9).count();
    println!(
        "sizes {sizes:?}, {} runs: kings differed in {kings}, a candidate joined late in {late}, \
         bits differed past phase 1 in {divided}, correct ones stopped apart in {}",
        all.len(),
        stopped_apart(&all)
    );
    assert!(kings > 0 && late > 0 && divided > 0);
    assert!((1..all.len()).contains(&more_minds(&all)));
}

/// In how many runs correct ones stopped at different rounds.
fn stopped_apart(all: &[Seen]) -> usize {
    all.iter().filter(|seen| seen.stopped_apart()).count()
}

/// Runs against faulty ones that make correct ones stop at different rounds. Most runs
/// do; some of them have no faulty one.
fn run_staggered(sizes: RangeInclusive<usize>, runs: u64) {
    let all = run_all(sizes.clone(), runs, Rushing::staggering);
    let apart = stopped_apart(&all);
    let divided = all.iter().filter(|seen| seen.last_divided >= 9).count();
    let most = all.iter().filter_map(|seen| seen.stops);
    let most = most.map(|(first, last)| (last - first) / 3).max();
    println!(
        "sizes {sizes:?}, {} runs: correct ones stopped apart in {apart}, at most by {} phases; \
         bits differed past phase 1 in {divided}",
        all.len(),
        most.unwrap_or(0)
    );
    assert!(apart > all.len() / 2 && divided > 0);
}

#[test]
fn small_networks_that_stop_apart_agree() {
    run_staggered(4..=10, 500);
}

#[test]
fn middle_networks_that_stop_apart_agree() {
    run_staggered(11..=31, 20);
}

#[test]
fn large_networks_that_stop_apart_agree() {
    run_staggered(32..=64, 3);
}

#[test]
fn small_networks_agree() {
    run_sizes(1..=10, 400);
}

#[test]
fn middle_networks_agree() {
    run_sizes(11..=31, 12);
}

#[test]
fn large_networks_agree() {
    run_sizes(32..=64, 2);
}

/// Faulty ones that are silent at first, at all or at some of the others for good. The
/// runs hold the records against the trays; here it is made sure that there was something
/// to record.
#[test]
fn late_ones_are_recorded() {
    for (sizes, runs) in [(4..=10, 200), (11..=31, 12), (32..=64, 2)] {
        let all = run_all(sizes.clone(), runs, Rushing::late);
        let late: Vec<usize> = all.iter().map(|seen| seen.heard_late).collect();
        let by_some: usize = all.iter().map(|seen| seen.heard_by_some).sum();
        let lines = late.iter().filter(|&&late| late > 0).count();
        let late: usize = late.iter().sum();
        println!(
            "sizes {sizes:?}, {} runs: {late} late rounds recorded, in {lines} runs; \
             {by_some} numbers heard by some and not by others",
            all.len()
        );
        assert!(late > 0 && lines > all.len() / 2 && by_some > 0);
    }
}

/// A line of one uses every byte that its size allows.
#[test]
fn one_alone_meets_the_limit_of_its_line() {
    let seen = run::<Engine>(1, 0, 1, Rushing::new).expect("a run");
    assert_eq!([seen.most_sent, limit(1)], [48; 2]);
}

/// The bound is sharp, and the checks can fail: where a third or more are faulty,
/// each claim breaks in some run. (Where just a third are, the correct ones are two
/// thirds, and an input that these all have is still decided.)
#[test]
fn a_faulty_third_breaks_agreement() {
    let cases = [
        (3, 1, "not all decided"),
        (3, 1, "no agreement"),
        (6, 2, "not all decided"),
        (6, 2, "no agreement"),
        (7, 3, "no correct one"),
        (7, 3, "not of one mind"),
        (7, 3, "not relayed"),
    ];
    for (size, faulty, claim) in cases {
        let found = broken::<Engine>(size, faulty, claim);
        println!("{size} with {faulty} faulty: {found:?}");
        assert!(found.is_some(), "{size} with {faulty} faulty: {claim}");
    }
}

/// Agrees with each: tells it the bit that it brought in itself.
struct Flattering;

impl Adversary for Flattering {
    fn entries(&mut self, view: &View, receiver: usize) -> Vec<Entry> {
        let own = view.correct[receiver].input;
        let bit = if view.round < 3 { NONE } else { own };
        let bytes = frame(view.round, bit, &[]);
        vec![Entry { sender: 3, bytes }]
    }
}

/// Correct 5 and 7 and faulty 3, a third of the line: each decides for itself.
#[test]
fn a_flattering_third_divides() {
    for bits in [[0, 1], [1, 0]] {
        let correct = [(5, bits[0]), (7, bits[1])];
        let mut network = Network::<Engine>::start(&correct, 1, 1).expect("a start");
        let end = network.run(&mut Flattering);
        assert_eq!(end, Err(format!("no agreement: {bits:?}")));
    }
}

/// The faulty one of document 01's last trial, with document 02's void frame: an empty
/// entry. From round 3 on it is silent.
struct Three;

impl Adversary for Three {
    fn entries(&mut self, view: &View, receiver: usize) -> Vec<Entry> {
        let to = view.correct[receiver].number;
        let bytes = match view.round {
            1 if to != 9 => frame(1, NONE, &[]),
            2 if to == 9 => frame(2, NONE, &[3]),
            2 => Vec::new(),
            _ => return Vec::new(),
        };
        vec![Entry { sender: 3, bytes }]
    }
}

/// Correct 5, 7, 9 and faulty 3: who is king in which phase, and when all decide.
#[test]
fn the_last_trial() {
    for bits in 0..8u8 {
        let correct = [(5, bits & 1), (7, bits >> 1 & 1), (9, bits >> 2)];
        let mut network = Network::<Engine>::start(&correct, 1, 1).expect("a start");
        let mut kings = Vec::new();
        for _ in 1..15 {
            assert!(network.correct.iter().all(|p| !p.is_quiet()));
            network.step(&mut Three).expect("an accepted round");
            let states = network.correct.iter().map(|p| p.fields());
            kings.push(states.map(|s| s.king).collect::<Vec<_>>());
        }
        // kings[t - 2] is after the making of round t.
        assert_eq!(kings[1], [5, 5, 3]);
        assert_eq!(kings[4], [5, 5, 5]);
        let states: Vec<_> = network.correct.iter().map(|p| p.fields()).collect();
        assert!(states.iter().all(|s| s.candidates == [3, 5, 7, 9]));
        assert!(states.iter().all(|s| s.decision == states[0].decision));
        assert!(states.iter().all(|s| !s.undecided() && s.round == 15));
    }
}

/// Gives its number to 5 alone to echo, and void frames to the others. Before the three
/// candidates are through it gives it to 7 too, and then to 5 alone again: with the
/// lists of 5 and 7 these are three of four.
struct Dividing;

impl Adversary for Dividing {
    fn entries(&mut self, view: &View, receiver: usize) -> Vec<Entry> {
        let (round, to) = (view.round, view.correct[receiver].number);
        let list: &[u32] = if round == 1 { &[] } else { &[3] };
        let bytes = match (round, to) {
            (1 | 2 | 5 | 8 | 11, 5) | (8, 7) => frame(round, NONE, list),
            _ => Vec::new(),
        };
        vec![Entry { sender: 3, bytes }]
    }
}

/// Correct 5, 7, 9 and faulty 3: 7 and 9 decide in phase 3, and 5 in phase 4.
#[test]
fn one_decides_a_phase_after_the_others() {
    for bits in 0..8u8 {
        let correct = [(5, bits & 1), (7, bits >> 1 & 1), (9, bits >> 2)];
        let mut network = Network::<Engine>::start(&correct, 1, 1).expect("a start");
        network.run(&mut Dividing).expect("a run");
        let states: Vec<_> = network.correct.iter().map(|p| p.fields()).collect();
        assert!(states.iter().map(|s| s.round).eq([15, 12, 12]));
        assert_eq!(states[0].candidates, [3, 5, 7, 9]);
        assert!(states[1..].iter().all(|s| s.candidates == [5, 7, 9]));
        assert!(states.iter().all(|s| s.decision == states[0].decision));
    }
}

/// Silent at first: 5 hears it from round 6 on, 7 an empty entry in round 8, 9 nothing.
struct LateThree;

impl Adversary for LateThree {
    fn entries(&mut self, view: &View, receiver: usize) -> Vec<Entry> {
        let round = view.round;
        let bytes = match view.correct[receiver].number {
            5 if round >= 6 => frame(round, 1, &[]),
            7 if round == 8 => Vec::new(),
            _ => return Vec::new(),
        };
        vec![Entry { sender: 3, bytes }]
    }
}

#[test]
fn each_records_when_it_heard_a_late_one() {
    let correct = [(5, 0), (7, 1), (9, 1)];
    let mut network = Network::<Engine>::start(&correct, 1, 1).expect("a start");
    // 3 is no candidate: it sent no init.
    for _ in 1..12 {
        network.step(&mut LateThree).expect("an accepted round");
    }
    assert!(network.correct.iter().all(|p| p.is_quiet()));
    let recorded = network.correct.iter().map(|p| Engine::record(&p.image));
    let expected = [
        vec![(3, 6), (5, 0), (7, 1), (9, 1)],
        vec![(3, 8), (5, 1), (7, 0), (9, 1)],
        vec![(5, 1), (7, 1), (9, 0)],
    ];
    assert!(recorded.eq(expected));
}
