//! What is timed: a state with a tray for it, or a whole run's trays.

use checks::calls::{Calls, Engine, InPlace, Reference};
use checks::fields::{Fields, IMAGE_LEN};
use checks::packing::{frame, pack, Entry, MAX_ENTRIES, MAX_TRAY, NONE};
use checks::random::Random;

pub const SIZES: [usize; 3] = [4, 16, 64];

/// A name and how to make the input for a network of n.
pub type Make = (&'static str, fn(usize) -> Input);

pub const ALL: [Make; 15] = [
    ("value tray", value_tray),
    ("value tray, two thirds silent", value_silent),
    ("turn tray, equal lists", equal_lists),
    ("turn tray, two thirds silent", turn_silent),
    ("turn tray, a third of the lists random", random_third),
    ("turn tray, a third off by one number", off_third),
    (
        "turn tray, a third random, neighbours shuffled",
        random_shuffled,
    ),
    ("turn tray, n * n different numbers", different_lists),
    ("turn tray, n * n random numbers", random_lists),
    (
        "turn tray, different numbers and a common one",
        common_number,
    ),
    (
        "turn tray, different numbers, new senders, each frame four times",
        new_senders,
    ),
    ("value tray, 256 entries", repeated_entries),
    ("turn tray, each frame four times", four_copies),
    (
        "turn tray, 256 entries under one number, the last differs",
        last_differs,
    ),
    ("whole run to decision", whole_run),
];

/// A tray of many bytes for little work, and a whole run: for the comparison of the
/// two ways to go over the bytes.
pub const PASSED: [Make; 2] = [
    ("turn tray, equal lists", equal_lists),
    ("whole run to decision", whole_run),
];

/// Lists of the same numbers, for the comparison of ways to count.
pub const SAME_NUMBERS: [Make; 2] = [
    ("equal lists taken as one", equal_lists),
    ("each gone along by itself", equal_lists_apart),
];

pub struct Input {
    /// The state that the first tray meets.
    pub image: Vec<u8>,
    pub trays: Vec<Vec<u8>>,
}

/// What calls write into, made once.
pub struct Lent {
    pub image: Vec<u8>,
    pub out: [u8; 264],
    pub length: usize,
}

impl Lent {
    pub fn new() -> Lent {
        Lent {
            image: vec![0; IMAGE_LEN],
            out: [0; 264],
            length: 0,
        }
    }
}

impl Input {
    /// Restores the state and works all trays; the last answer.
    pub fn work<C: Calls>(&self, lent: &mut Lent) -> u8 {
        lent.image.copy_from_slice(&self.image);
        let mut answer = 0;
        for tray in &self.trays {
            answer = C::tray(&mut lent.image, tray, &mut lent.out, &mut lent.length);
        }
        answer
    }

    /// All three work the input, and come to the same.
    pub fn check(&self) {
        let reference = self.worked::<Reference>();
        for other in [self.worked::<Engine>(), self.worked::<InPlace>()] {
            assert_eq!(other.image, reference.image);
            assert_eq!(other.out, reference.out);
            assert_eq!(other.length, reference.length);
        }
    }

    /// What the calls leave; no tray is refused.
    fn worked<C: Calls>(&self) -> Lent {
        let mut lent = Lent::new();
        assert_eq!(self.work::<C>(&mut lent), 0);
        lent
    }

    pub fn bytes(&self) -> usize {
        self.trays.iter().map(Vec::len).sum()
    }
}

/// The numbers of a network.
fn numbers(size: usize) -> Vec<u32> {
    (1..=size as u32).map(|i| 1_000_003 * i).collect()
}

/// The first one of a network, which has heard all others since round 1.
fn state(size: usize, round: u32) -> Fields {
    let all = numbers(size);
    let mut first_rounds = vec![1; size];
    first_rounds[0] = 0;
    Fields {
        number: all[0],
        round,
        bit: 1,
        said: 1,
        strong: 0,
        king: all[1],
        decision: 2,
        heard: all.clone(),
        candidates: all,
        echoes: Vec::new(),
        first_rounds,
    }
}

/// A tray with a frame from each other one.
fn from_others(round: u32, frames: impl IntoIterator<Item = (u32, Vec<u8>)>) -> Vec<u8> {
    let entry = |(sender, bytes)| Entry { sender, bytes };
    pack(round, &frames.into_iter().map(entry).collect::<Vec<_>>())
}

fn value_frames(size: usize) -> Vec<(u32, Vec<u8>)> {
    let others = numbers(size).into_iter().skip(1).enumerate();
    others
        .map(|(i, n)| (n, frame(3, (i % 2) as u8, &[])))
        .collect()
}

fn value_tray(size: usize) -> Input {
    Input {
        image: state(size, 3).image(),
        trays: vec![from_others(3, value_frames(size))],
    }
}

/// The same, but two thirds of the others have no entry.
fn value_silent(size: usize) -> Input {
    Input {
        image: state(size, 3).image(),
        trays: vec![from_others(3, value_frames(size).into_iter().step_by(3))],
    }
}

/// The entries of all others, again and again up to 256.
fn repeated_entries(size: usize) -> Input {
    let frames = repeated(value_frames(size).into_iter(), MAX_ENTRIES);
    Input {
        image: state(size, 3).image(),
        trays: vec![from_others(3, frames)],
    }
}

/// All list the same n numbers, none of them a candidate: all of them become so.
fn equal_lists(size: usize) -> Input {
    let mut state = state(size, 5);
    state.candidates.clear();
    state.echoes = numbers(size);
    turn_tray(&state, |_| numbers(size))
}

/// The same, but no two neighbours send the same bytes, and the own list has its
/// last number off by one: no two lists are taken as one.
fn equal_lists_apart(size: usize) -> Input {
    let mut state = state(size, 5);
    state.candidates.clear();
    state.echoes = numbers(size);
    state.echoes[size - 1] += 1;
    let others = state.heard.iter().enumerate().skip(1);
    let frames = others.map(|(place, &n)| (n, frame(5, (place % 3) as u8, &numbers(size))));
    Input {
        image: state.image(),
        trays: vec![from_others(5, frames)],
    }
}

/// Equal lists, but two thirds of the others have no entry: the own list counts for them.
fn turn_silent(size: usize) -> Input {
    let mut state = state(size, 5);
    state.candidates.clear();
    state.echoes = numbers(size);
    let others = numbers(size).into_iter().skip(1).step_by(3);
    let frames = others.map(|n| (n, frame(5, NONE, &numbers(size))));
    Input {
        image: state.image(),
        trays: vec![from_others(5, frames)],
    }
}

/// The n numbers of the one at a place, spread over the same range for all places.
fn own_numbers(size: usize, place: usize) -> Vec<u32> {
    let numbers = (0..size).map(|i| 500 + 977 * (i * size + place) as u32);
    numbers.collect()
}

/// Each lists n numbers of its own, so none comes to a third and the tray is
/// accepted. The lists have 4,096 numbers for n = 64.
fn different_lists(size: usize) -> Input {
    let mut state = state(size, 5);
    state.echoes = own_numbers(size, 0);
    turn_tray(&state, |place| own_numbers(size, place))
}

/// The same, but the last number is the same for all: no list ends before the
/// others, and the count of the last number reaches two thirds.
fn common_number(size: usize) -> Input {
    let list = |place: usize| {
        let mut list = own_numbers(size, place);
        list[size - 1] = u32::MAX;
        list
    };
    let mut state = state(size, 5);
    state.candidates.clear();
    state.echoes = list(0);
    turn_tray(&state, list)
}

/// Different numbers from senders none of whom is heard yet, in falling order, four
/// times, or for n = 64 as often as a tray holds.
fn new_senders(size: usize) -> Input {
    let mut state = state(size, 5);
    state.heard.truncate(1);
    state.first_rounds.truncate(1);
    state.echoes = own_numbers(size, 0);
    let others = numbers(size).into_iter().enumerate().skip(1).rev();
    let frames = others.map(|(place, n)| (n, frame(5, NONE, &own_numbers(size, place))));
    Input {
        image: state.image(),
        trays: vec![from_others(5, repeated(frames, 4 * (size - 1)))],
    }
}

/// All list the same numbers, and each frame is there four times.
fn four_copies(size: usize) -> Input {
    let mut state = state(size, 5);
    let most = frame_room(4 * (size - 1)) / 4 - 2;
    state.echoes = numbers(size.min(most));
    let list = frame(5, NONE, &state.echoes);
    let others = numbers(size).into_iter().skip(1);
    let frames = others.map(|n| (n, list.clone()));
    Input {
        image: state.image(),
        trays: vec![from_others(5, repeated(frames, 4 * (size - 1)))],
    }
}

/// 256 entries under one number, of which the last one has another opinion.
fn last_differs(size: usize) -> Input {
    let mut state = state(size, 5);
    let most = frame_room(MAX_ENTRIES) / 4 - 2;
    state.echoes = numbers(size.min(most));
    let sent = |bit| (state.king, frame(5, bit, &state.echoes));
    let copies = std::iter::repeat_with(|| sent(1)).take(MAX_ENTRIES - 1);
    Input {
        image: state.image(),
        trays: vec![from_others(5, copies.chain([sent(0)]))],
    }
}

/// The most bytes of each frame, where a tray is to hold so many.
fn frame_room(entries: usize) -> usize {
    (MAX_TRAY - 8) / entries - 8
}

/// Frames again and again, so many of them or as many as a tray holds.
fn repeated<F>(frames: F, entries: usize) -> Vec<(u32, Vec<u8>)>
where
    F: Iterator<Item = (u32, Vec<u8>)> + Clone,
{
    let mut end = 8;
    let fits = |(_, bytes): &(u32, Vec<u8>)| {
        end += 8 + bytes.len();
        end <= MAX_TRAY
    };
    frames.cycle().take(entries).take_while(fits).collect()
}

/// Each lists n random numbers.
fn random_lists(size: usize) -> Input {
    let mut state = state(size, 5);
    state.echoes = random_list(size, 0);
    turn_tray(&state, |place| random_list(size, place))
}

/// How many of a network may be faulty.
fn most_faulty(size: usize) -> usize {
    (size - 1) / 3
}

/// The first two thirds list the same numbers, the others random ones.
fn random_third(size: usize) -> Input {
    let faulty = |place| place >= size - most_faulty(size);
    with_faulty(size, faulty, |place| random_list(size, place))
}

/// The same, but those that list random numbers stand between the others.
fn random_shuffled(size: usize) -> Input {
    with_faulty(
        size,
        |place| place % 3 == 2,
        |place| random_list(size, place),
    )
}

/// The first two thirds list the same numbers, the others have one of them off by
/// one, each another one.
fn off_third(size: usize) -> Input {
    let faulty = |place| place >= size - most_faulty(size);
    let off = |place: usize| {
        let mut list = numbers(size);
        list[place] += 1;
        list
    };
    with_faulty(size, faulty, off)
}

/// All list the same n numbers, none of them a candidate, but the faulty ones.
fn with_faulty(
    size: usize,
    faulty: impl Fn(usize) -> bool,
    list: impl Fn(usize) -> Vec<u32>,
) -> Input {
    let mut state = state(size, 5);
    state.candidates.clear();
    state.echoes = numbers(size);
    turn_tray(&state, |place| match faulty(place) {
        true => list(place),
        false => numbers(size),
    })
}

/// n numbers in rising order, the same ones for the same place.
fn random_list(size: usize, place: usize) -> Vec<u32> {
    let mut random = Random::new(place as u64);
    let highest = 1_000_003 * size;
    let mut numbers = std::collections::BTreeSet::new();
    while numbers.len() < size {
        numbers.insert(1 + random.below(highest) as u32);
    }
    numbers.into_iter().collect()
}

/// A turn tray; the list is that of the one at a place in the network.
fn turn_tray(state: &Fields, list: impl Fn(usize) -> Vec<u32>) -> Input {
    let others = state.heard.iter().enumerate().skip(1);
    let frames = others.map(|(place, &n)| (n, frame(5, NONE, &list(place))));
    Input {
        image: state.image(),
        trays: vec![from_others(5, frames)],
    }
}

/// A network of correct ones only, to the round in which all decide. The trays are
/// those of its first one, so that the time is the engine's and not the host's.
fn whole_run(size: usize) -> Input {
    let all = numbers(size);
    let mut running: Vec<Lent> = all.iter().map(|_| Lent::new()).collect();
    for (i, lent) in running.iter_mut().enumerate() {
        let bit = (i % 2) as u8;
        Engine::start(
            all[i],
            bit,
            &mut lent.image,
            &mut lent.out,
            &mut lent.length,
        );
    }
    let image = running[0].image.clone();
    let mut trays = Vec::new();
    for round in 1..3 + 3 * size as u32 {
        let sent = all.iter().zip(&running);
        let sent: Vec<_> = sent
            .map(|(&n, l)| (n, l.out[..l.length].to_vec()))
            .collect();
        for (i, lent) in running.iter_mut().enumerate() {
            let others = sent.iter().filter(|(n, _)| *n != all[i]);
            let tray = from_others(round, others.cloned());
            Engine::tray(&mut lent.image, &tray, &mut lent.out, &mut lent.length);
            if i == 0 {
                trays.push(tray);
            }
        }
    }
    assert_ne!(Engine::answers(&running[0].image)[0], 2, "decided");
    Input { image, trays }
}
