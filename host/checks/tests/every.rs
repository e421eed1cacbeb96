//! Lines of four and five with one faulty controller, to their end under everything that
//! it can do.
//!
//! In each round and for each correct one that still sends, the faulty one chooses among:
//! - round 1: no entry, an empty entry, init;
//! - round 2: no entry, an empty entry, a roster of none or of its own number;
//! - a value round: no entry, an empty entry, 0, 1;
//! - a propose round: no entry, an empty entry, 0, 1, none;
//! - a turn round: no entry, an empty entry, and each of the opinions 0, 1 and none with a
//!   list of none or of its own number.
//!
//! No other frame does anything else: void frames and frames that differ are received as
//! an empty entry, the correct ones' numbers are everyone's candidates from phase 0 on,
//! and another number comes to no third. So what is reached here is all that is reached in
//! any run of such a line, from the start with all inputs to the deadline, wherever the
//! faulty number stands among the others. States that differ in their first rounds alone
//! are followed once, since no rule reads these.

#![cfg(not(feature = "fault"))]

use std::collections::{BTreeSet, HashMap, HashSet};
use std::marker::PhantomData;

use checks::calls::{Calls, Engine};
use checks::fields::{Fields, FIRST_ROUNDS, IMAGE_LEN, RESERVED};
use checks::packing::{frame, kind_of, pack, Entry, INIT, NONE, PROPOSE, ROSTER, VALUE};

/// What the faulty one may hand to a correct one in a round; nothing is no entry.
fn choices(round: u32, faulty: u32) -> Vec<Option<Vec<u8>>> {
    let frames = match kind_of(round) {
        INIT => vec![frame(round, NONE, &[])],
        ROSTER => with_lists(round, &[NONE], faulty),
        VALUE => vec![frame(round, 0, &[]), frame(round, 1, &[])],
        PROPOSE => [0, 1, NONE].map(|bit| frame(round, bit, &[])).to_vec(),
        _ => with_lists(round, &[0, 1, NONE], faulty),
    };
    let entries = frames.into_iter().map(Some);
    [None, Some(Vec::new())]
        .into_iter()
        .chain(entries)
        .collect()
}

fn with_lists(round: u32, bits: &[u8], faulty: u32) -> Vec<Vec<u8>> {
    let both = |&bit: &u8| [frame(round, bit, &[]), frame(round, bit, &[faulty])];
    bits.iter().flat_map(both).collect()
}

/// A correct one's state, with the frame that it sent; an empty one if it is quiet.
struct Reached {
    image: Vec<u8>,
    sent: Vec<u8>,
}

/// For each correct one, the place of its state among those reached.
type Joint<const CORRECT: usize> = [usize; CORRECT];

/// How much was gone through.
#[derive(Debug, Default, PartialEq, Eq)]
struct Counts {
    /// Joint states, over all rounds.
    joint: usize,
    /// Those in which some are quiet and others are not.
    apart: usize,
    /// Joint states with each choice for each one that still sends.
    steps: usize,
}

struct Line<C, const CORRECT: usize> {
    correct: [u32; CORRECT],
    faulty: u32,
    reached: Vec<Reached>,
    places: HashMap<Vec<u8>, usize>,
    counts: Counts,
    calls: PhantomData<C>,
}

impl<C: Calls, const CORRECT: usize> Line<C, CORRECT> {
    /// A line of the numbers 10, 20 and so on, of which one is faulty.
    fn of(place: usize) -> Self {
        let number = |i| 10 * (i as u32 + 1);
        Line {
            correct: std::array::from_fn(|i| number(i + usize::from(i >= place))),
            faulty: number(place),
            reached: Vec::new(),
            places: HashMap::new(),
            counts: Counts::default(),
            calls: PhantomData,
        }
    }

    /// The place of a state among those reached.
    fn place_of(&mut self, image: Vec<u8>, sent: &[u8]) -> usize {
        let mut key = image.clone();
        key[FIRST_ROUNDS..RESERVED].fill(0);
        let sent = sent.to_vec();
        *self.places.entry(key).or_insert_with(|| {
            self.reached.push(Reached { image, sent });
            self.reached.len() - 1
        })
    }

    fn start(&mut self, inputs: [u8; CORRECT]) -> Joint<CORRECT> {
        std::array::from_fn(|i| {
            let (mut image, mut out, mut length) = (vec![0; IMAGE_LEN], [0; 264], 0);
            let number = self.correct[i];
            let answer = C::start(number, inputs[i], &mut image, &mut out, &mut length);
            assert_eq!(answer, 0);
            self.place_of(image, &out[..length])
        })
    }

    /// What each choice makes of one of the states. A quiet one gets no tray.
    fn nexts(&mut self, joint: &Joint<CORRECT>, receiver: usize, round: u32) -> Vec<usize> {
        if self.reached[joint[receiver]].sent.is_empty() {
            return vec![joint[receiver]];
        }
        let mut entries = Vec::new();
        for (i, &place) in joint.iter().enumerate() {
            let (sender, bytes) = (self.correct[i], self.reached[place].sent.clone());
            if i != receiver && !bytes.is_empty() {
                entries.push(Entry { sender, bytes });
            }
        }
        let sender = self.faulty;
        let made = |choice: Option<Vec<u8>>| {
            let from_faulty = choice.map(|bytes| Entry { sender, bytes });
            let tray: Vec<Entry> = entries.iter().cloned().chain(from_faulty).collect();
            self.next(joint[receiver], &pack(round, &tray), round)
        };
        choices(round, sender).into_iter().map(made).collect()
    }

    /// Works a tray, which must be accepted; a decision sends nothing, and is the end.
    fn next(&mut self, place: usize, tray: &[u8], round: u32) -> usize {
        let mut image = self.reached[place].image.clone();
        let (mut out, mut length) = ([0; 264], 1);
        let answer = C::tray(&mut image, tray, &mut out, &mut length);
        assert_eq!(answer, 0, "round {round}");
        let state = Fields::of(&image);
        assert_eq!(state.round, round + 1);
        assert_eq!(length == 0, !state.undecided());
        if length == 0 {
            assert_eq!(out, [0; 264]);
            let before = image.clone();
            let answer = C::tray(&mut image, &pack(round + 1, &[]), &mut out, &mut length);
            assert_eq!((answer, &image), (2, &before));
        }
        self.place_of(image, &out[..length])
    }

    /// Every joint state that the choices of a round make of one.
    fn made_of(&mut self, joint: &Joint<CORRECT>, round: u32) -> Vec<Joint<CORRECT>> {
        let mut all = vec![*joint];
        let mut steps = 1;
        for receiver in 0..CORRECT {
            let nexts = self.nexts(joint, receiver, round);
            steps *= nexts.len();
            let nexts = BTreeSet::from_iter(nexts);
            let with = |made: &Joint<CORRECT>, next| {
                let mut made = *made;
                made[receiver] = next;
                made
            };
            let extended = all
                .iter()
                .flat_map(|made| nexts.iter().map(|&n| with(made, n)));
            all = extended.collect();
        }
        self.counts.steps += steps;
        all
    }

    /// Follows all that is reached from some inputs, and gives the last states.
    fn explore(&mut self, inputs: &[[u8; CORRECT]]) -> HashSet<Joint<CORRECT>> {
        let mut all: HashSet<_> = inputs.iter().map(|&bits| self.start(bits)).collect();
        let deadline = 3 + 3 * (CORRECT as u32 + 1);
        for round in 1..deadline {
            let mut made = HashSet::new();
            for joint in &all {
                made.extend(self.made_of(joint, round));
            }
            self.counts.joint += made.len();
            for joint in &made {
                let quiet = joint.map(|place| self.reached[place].sent.is_empty());
                let apart = quiet.contains(&true) && quiet.contains(&false);
                self.counts.apart += usize::from(apart);
            }
            all = made;
        }
        all
    }

    /// In all last states all have decided, alike, and for an input.
    fn check(&mut self, inputs: &[[u8; CORRECT]]) {
        for joint in self.explore(inputs) {
            let decisions = joint.map(|place| Fields::of(&self.reached[place].image).decision);
            assert_ne!(decisions[0], 2, "{decisions:?}");
            assert_eq!(decisions, [decisions[0]; CORRECT]);
            let brought = |bits: &[u8; CORRECT]| bits.contains(&decisions[0]);
            assert!(inputs.iter().all(brought), "{decisions:?} of {inputs:?}");
        }
    }
}

/// Each place of the faulty number, with all inputs: those that are alike by themselves,
/// since they fix the decision, and all others together.
fn check_all<const CORRECT: usize>() -> Counts {
    let bits = |all: usize| std::array::from_fn(|i| (all >> i & 1) as u8);
    let mixed: Vec<[u8; CORRECT]> = (1..(1 << CORRECT) - 1).map(bits).collect();
    let mut total = Counts::default();
    for place in 0..=CORRECT {
        for inputs in [&[[0; CORRECT]][..], &[[1; CORRECT]], &mixed] {
            let mut line = Line::<Engine, CORRECT>::of(place);
            line.check(inputs);
            total.joint += line.counts.joint;
            total.apart += line.counts.apart;
            total.steps += line.counts.steps;
        }
    }
    println!("line of {}: {total:?}", CORRECT + 1);
    total
}

#[test]
fn lines_of_four_agree_whatever_the_faulty_one_does() {
    let counts = Counts {
        joint: 30_226,
        apart: 720,
        steps: 5_416_494,
    };
    assert_eq!(check_all::<3>(), counts);
}

#[test]
fn lines_of_five_agree_whatever_the_faulty_one_does() {
    let counts = Counts {
        joint: 192_606,
        apart: 2_520,
        steps: 223_229_670,
    };
    assert_eq!(check_all::<4>(), counts);
}
