//! Document 01's trials and its listing, and the sentences of document 02's requests, on
//! the reference.

#![cfg(not(feature = "fault"))]

use reference::frame::{self, Void};
use reference::{reaches_third, reaches_two_thirds, IMAGE_LEN};

const WORKED: u8 = 0;
const INIT: [u8; 8] = [0, 0, 0, 1, 1, 2, 0, 0];

struct Controller {
    image: [u8; IMAGE_LEN],
    out: [u8; 264],
    length: usize,
}

impl Controller {
    fn start(number: u32, bit: u8) -> Controller {
        let mut new = Controller {
            image: [0xAA; IMAGE_LEN],
            out: [0x55; 264],
            length: 77,
        };
        let Controller { image, out, length } = &mut new;
        assert_eq!(reference::start(number, bit, image, out, length), WORKED);
        new
    }

    fn tray(&mut self, tray: &[u8]) -> u8 {
        reference::tray(&mut self.image, tray, &mut self.out, &mut self.length)
    }

    /// The printer's line: the frame sent, then the state. Where nothing is sent, the
    /// kind is 0.
    fn line(&self) -> String {
        let image = &self.image;
        let sent = match self.length {
            0 => &[0, 0, 0, 0, 0, 2, 0, 0],
            length => &self.out[..length],
        };
        format!(
            "{} {} {} {} {} {} {} {}",
            reference::round(image),
            sent[4],
            sent[5],
            u16::from_be_bytes([sent[6], sent[7]]),
            reference::heard(image),
            reference::candidates(image),
            reference::king(image),
            reference::decision(image)
        )
    }

    /// Every heard number with the round of the tray that first brought it.
    fn record(&self) -> Vec<(u32, u32)> {
        let image = &self.image;
        let at = |i| {
            (
                reference::heard_number(image, i),
                reference::first_round(image, i),
            )
        };
        (0..reference::heard(image)).map(at).collect()
    }
}

fn empty_tray(round: u8) -> [u8; 8] {
    [0, 0, 0, round, 0, 0, 0, 0]
}

/// A tray of one init from number 9, at an offset that the test chooses.
fn tray_of_one(offset: u8) -> Vec<u8> {
    let mut tray = vec![0, 0, 0, 1, 0, 1, 0, 0];
    tray.extend([0, 0, 0, 9, 0, offset, 0, 8]);
    tray.extend(INIT);
    tray
}

/// A tray of a round with these senders and frames.
fn tray_from(round: u8, entries: &[(u8, &[u8])]) -> Vec<u8> {
    let mut tray = vec![0, 0, 0, round, 0, entries.len() as u8, 0, 0];
    let mut offset = (8 + 8 * entries.len()) as u16;
    for &(sender, frame) in entries {
        let [high, low] = offset.to_be_bytes();
        tray.extend([0, 0, 0, sender, high, low, 0, frame.len() as u8]);
        offset += frame.len() as u16;
    }
    tray.extend(entries.iter().flat_map(|(_, frame)| *frame));
    tray
}

/// A tray of round 1 with these frames under number 9.
fn tray_of(frames: &[&[u8]]) -> Vec<u8> {
    let entries: Vec<(u8, &[u8])> = frames.iter().map(|&frame| (9, frame)).collect();
    tray_from(1, &entries)
}

fn roster(numbers: &[u32]) -> Vec<u8> {
    let mut bytes = vec![0, 0, 0, 2, 2, 2, 0, numbers.len() as u8];
    bytes.extend(numbers.iter().flat_map(|n| n.to_be_bytes()));
    bytes
}

#[test]
fn the_thresholds_of_the_trials() {
    assert!(reaches_third(1, 1) && reaches_two_thirds(1, 1));
    assert!(reaches_third(1, 3) && reaches_two_thirds(2, 3));
    assert!(reaches_third(2, 4) && !reaches_third(1, 4));
    assert!(reaches_two_thirds(3, 4) && !reaches_two_thirds(2, 4));
    assert!(reaches_third(22, 64) && !reaches_third(21, 64));
    assert!(reaches_two_thirds(43, 64) && !reaches_two_thirds(42, 64));
}

#[test]
fn init_reads_and_a_wrong_bit_makes_it_void() {
    assert!(frame::read(&INIT, 1).is_ok());
    let mut wrong = INIT;
    wrong[5] = 0;
    assert_eq!(frame::read(&wrong, 1), Err(Void::Content));
}

#[test]
fn the_length_is_tested_before_the_round_and_the_round_before_the_rest() {
    let mut wrong = INIT;
    wrong[5] = 0;
    assert_eq!(reference::frame(&INIT, 1), 0);
    assert_eq!(reference::frame(&wrong, 1), 13);
    for round in [2, 4, 0, 196, u32::MAX] {
        assert_eq!(reference::frame(&wrong, round), 12);
        assert_eq!(reference::frame(&wrong[..7], round), 11);
        assert_eq!(reference::frame(&[&wrong[..], &[0]].concat(), round), 11);
    }
    let mut other_kind = INIT;
    other_kind[4] = 2;
    assert_eq!(reference::frame(&other_kind, 1), 12);
    // A round that there is not, though the frame says it.
    assert_eq!(reference::frame(&[0, 0, 0, 196, 4, 0, 0, 0], 196), 12);
    assert_eq!(reference::frame(&[0, 0, 0, 0, 3, 0, 0, 0], 0), 12);
}

#[test]
fn rosters_rise() {
    let five_seven = roster(&[5, 7]);
    let read = frame::read(&five_seven, 2).expect("a roster");
    assert!(read.numbers().eq([5, 7]));
    for list in [[7, 5], [5, 5], [0, 5]] {
        assert_eq!(frame::read(&roster(&list), 2), Err(Void::Content));
    }
}

#[test]
fn a_list_of_64_reads_and_one_of_65_is_void() {
    let numbers: Vec<u32> = (1..=65).collect();
    assert!(frame::read(&roster(&numbers[..64]), 2).is_ok());
    assert_eq!(frame::read(&roster(&numbers), 2), Err(Void::Content));
}

#[test]
fn the_layout_trials() {
    let mut c = Controller::start(7, 1);
    assert_eq!(c.tray(&[0, 0, 0, 1, 0, 0, 0, 0, 0]), 4);
    assert_eq!(c.tray(&empty_tray(1)[..7]), 4);
    assert_eq!(c.tray(&tray_of_one(17)), 4);
    assert_eq!(c.tray(&empty_tray(2)), 5);
    assert_eq!(c.length, 0);
    assert_eq!(c.tray(&tray_of_one(16)), WORKED);
    assert_eq!(c.line(), "2 2 2 2 2 0 0 2");
    let mut alone = Controller::start(7, 1);
    assert_eq!(alone.tray(&empty_tray(1)), WORKED);
}

#[test]
fn a_refused_call_changes_the_length_alone() {
    let mut c = Controller::start(7, 1);
    let (image, out) = (c.image, c.out);
    assert_eq!(c.tray(&empty_tray(2)), 5);
    assert_eq!((c.image, c.out, c.length), (image, out, 0));
}

#[test]
fn start_refuses() {
    let mut image = [3; IMAGE_LEN];
    let mut out = [4; 264];
    let mut length = 5;
    assert_eq!(reference::start(0, 1, &mut image, &mut out, &mut length), 9);
    assert_eq!(reference::start(7, 2, &mut image, &mut [], &mut length), 9);
    let short = &mut out[..263];
    assert_eq!(reference::start(7, 1, &mut image, short, &mut length), 3);
    let cut = &mut image[..1023];
    assert_eq!(reference::start(0, 9, cut, &mut [], &mut length), 1);
    assert_eq!((image, out, length), ([3; IMAGE_LEN], [4; 264], 0));
}

#[test]
fn the_listing() {
    let mut c = Controller::start(7, 1);
    let mut lines = vec![c.line()];
    for round in 1..=5 {
        assert_eq!(c.tray(&empty_tray(round)), WORKED);
        lines.push(c.line());
    }
    let expected = [
        "1 1 2 0 1 0 0 2",
        "2 2 2 1 1 0 0 2",
        "3 3 1 0 1 1 7 2",
        "4 4 1 0 1 1 7 2",
        "5 5 1 1 1 1 7 2",
        "6 0 2 0 1 1 0 1",
    ];
    assert_eq!(lines, expected);
}

/// Request A5. The fourth column is how many the roster lists: who sent one init.
#[test]
fn frames_that_differ_are_heard_and_say_nothing() {
    let (late, other): (&[u8], &[u8]) = (&[0, 0, 0, 2, 1, 2, 0, 0], &[1]);
    let (good, none): (&[u8], &[u8]) = (&INIT, &[]);
    let said = |frames: &[&[u8]]| {
        let mut c = Controller::start(7, 1);
        assert_eq!(c.tray(&tray_of(frames)), WORKED);
        c.line()
    };
    for copies in [&[good][..], &[good, good], &[good, good, good]] {
        assert_eq!(said(copies), "2 2 2 2 2 0 0 2", "{copies:?}");
    }
    let differ = [
        [good, late],
        [late, good],
        [good, none],
        [none, good],
        [late, other],
    ];
    for frames in differ.iter().chain(&[[late, late], [none, none]]) {
        assert_eq!(said(frames), "2 2 2 1 2 0 0 2", "{frames:?}");
    }
}

#[test]
fn a_run_alone_ends_with_its_decision() {
    let mut c = Controller::start(7, 0);
    for round in 1..=5 {
        assert_eq!(c.tray(&empty_tray(round)), WORKED);
    }
    assert_eq!(reference::decision(&c.image), 0);
    for round in [5, 6, 7] {
        assert_eq!(c.tray(&empty_tray(round)), 2);
    }
    assert_eq!(reference::round(&c.image), 6);
}

#[test]
fn an_image_not_sound_has_no_answers() {
    let mut c = Controller::start(7, 0);
    c.image[1023] = 1;
    assert_eq!(c.tray(&empty_tray(1)), 1);
    assert_eq!(reference::decision(&c.image), 255);
    let sizes = [reference::heard, reference::candidates, reference::echoes];
    for call in sizes.iter().chain(&[reference::round, reference::king]) {
        assert_eq!(call(&c.image), 0);
    }
    assert_eq!(reference::heard_number(&c.image, 0), 0);
}

/// Request A8: 5 comes late and in front of the others, 8 between them and later still.
#[test]
fn a_number_keeps_the_round_that_first_brought_it() {
    let mut c = Controller::start(7, 1);
    assert_eq!(c.record(), [(7, 0)]);
    assert_eq!(c.tray(&tray_from(1, &[(9, &INIT)])), WORKED);
    assert_eq!(c.record(), [(7, 0), (9, 1)]);
    let rosters = (roster(&[7, 9]), roster(&[5]));
    let tray = tray_from(2, &[(9, &rosters.0), (5, &rosters.1)]);
    assert_eq!(c.tray(&tray), WORKED);
    assert_eq!(c.record(), [(5, 2), (7, 0), (9, 1)]);
    let again: [(u8, &[u8]); 4] = [(9, &[]), (8, &[]), (5, &[]), (8, &[1])];
    assert_eq!(c.tray(&tray_from(3, &again)), WORKED);
    assert_eq!(c.record(), [(5, 2), (7, 0), (8, 3), (9, 1)]);
    assert_eq!(c.tray(&empty_tray(4)), WORKED);
    assert_eq!(c.record(), [(5, 2), (7, 0), (8, 3), (9, 1)]);
    for past in [4, 63, 64, 1 << 30, u32::MAX] {
        assert_eq!(reference::heard_number(&c.image, past), 0);
        assert_eq!(reference::first_round(&c.image, past), 0);
    }
}

#[test]
fn any_entry_brings_its_number() {
    let good: &[u8] = &INIT;
    for frames in [
        &[good][..],
        &[&[]],
        &[&[1]],
        &[good, &[]],
        &[good, &[1], good],
    ] {
        let mut c = Controller::start(7, 1);
        assert_eq!(c.tray(&tray_of(frames)), WORKED);
        assert_eq!(c.record(), [(7, 0), (9, 1)], "{frames:?}");
    }
}

#[test]
fn the_last_tray_brings_a_number_in_round_194() {
    let mut c = of_four(194, [1, 2]);
    assert_eq!(c.tray(&tray_from(194, &[(8, &[])])), WORKED);
    assert_eq!(c.record(), [(3, 1), (5, 1), (7, 0), (8, 194), (9, 1)]);
}

#[test]
fn a_refused_tray_brings_nobody() {
    let all: Vec<(u8, &[u8])> = (10..74).map(|n| (n, &[][..])).collect();
    let mut c = Controller::start(7, 1);
    assert_eq!(c.tray(&tray_from(1, &all)), 7);
    assert_eq!(c.tray(&tray_from(2, &all[1..])), 5);
    assert_eq!(c.tray(&tray_from(1, &[(9, &[]), (7, &[])])), 6);
    assert_eq!(c.record(), [(7, 0)]);
    assert_eq!(c.tray(&tray_from(1, &all[1..])), WORKED);
    assert_eq!(c.record().len(), 64);
}

/// Whether a state of round 2, with 5, 7 (the own number) and 9 heard, is sound with
/// these first rounds from the front.
fn is_sound_with(first_rounds: &[u8]) -> bool {
    let mut c = Controller::start(7, 1);
    assert_eq!(c.tray(&tray_from(1, &[(5, &INIT), (9, &INIT)])), WORKED);
    assert_eq!(c.image[796..][..64], [&[1, 0, 1][..], &[0; 61]].concat());
    c.image[796..][..first_rounds.len()].copy_from_slice(first_rounds);
    reference::round(&c.image) == 2
}

#[test]
fn first_rounds_are_in_range_and_0_in_unused_places() {
    for sound in [[1, 0, 1], [194, 0, 1], [1, 0, 194], [2, 0, 3]] {
        assert!(is_sound_with(&sound), "{sound:?}");
    }
    let own = [[1, 1, 1], [1, 194, 1], [1, 195, 1]];
    let other = [[0, 0, 1], [1, 0, 0], [0, 0, 0], [195, 0, 1], [1, 0, 255]];
    for unsound in own.iter().chain(&other) {
        assert!(!is_sound_with(unsound), "{unsound:?}");
    }
    for place in 3..64 {
        let mut unused = vec![1, 0, 1];
        unused.resize(place, 0);
        unused.push(1);
        assert!(!is_sound_with(&unused), "a first round at {place}");
    }
}

/// Where the image has the round's lowest byte, the own bit, the bit said, strong, the
/// king's lowest byte and the decision.
const ROUND: usize = 4;
const BIT: usize = 8;
const SAID: usize = 9;
const STRONG: usize = 10;
const KING: usize = 11;
const DECISION: usize = 15;

/// A list at its place in an image: the count, then the numbers, all under 256.
fn put_list(image: &mut [u8], at: usize, numbers: &[u8]) {
    image[at..at + 260].fill(0);
    image[at] = numbers.len() as u8;
    for (place, &number) in numbers.iter().enumerate() {
        image[at + 4 + 4 * place] = number;
    }
}

/// Controller 7, undecided in a round, with its own bit and the bit said. It has heard
/// 3, 5 and 9; all four are candidates, 5 is king, and the echoes are 11 and 12.
fn of_four(round: u8, [bit, said]: [u8; 2]) -> Controller {
    let mut c = Controller::start(7, bit);
    c.image[ROUND] = round;
    c.image[SAID] = said;
    c.image[KING] = 5;
    put_list(&mut c.image, 16, &[3, 5, 7, 9]);
    c.image[796..800].copy_from_slice(&[1, 1, 0, 1]);
    if round > 1 {
        put_list(&mut c.image, 536, &[11, 12]);
    }
    if round > 2 {
        put_list(&mut c.image, 276, &[3, 5, 7, 9]);
    }
    assert_eq!(reference::round(&c.image), u32::from(round), "sound");
    c
}

/// The numbers of the list at a place of the image.
fn list(c: &Controller, at: usize) -> Vec<u8> {
    let count = usize::from(c.image[at]);
    (0..count).map(|i| c.image[at + 4 + 4 * i]).collect()
}

fn candidates(c: &Controller) -> Vec<u8> {
    list(c, 276)
}

fn echoes(c: &Controller) -> Vec<u8> {
    list(c, 536)
}

/// A frame of a round up to 255 without numbers.
fn short(round: u8, kind: u8, bit: u8) -> Vec<u8> {
    vec![0, 0, 0, round, kind, bit, 0, 0]
}

/// A turn of round 5.
fn turn(bit: u8, numbers: &[u32]) -> Vec<u8> {
    let mut bytes = vec![0, 0, 0, 5, 5, bit, 0, numbers.len() as u8];
    bytes.extend(numbers.iter().flat_map(|n| n.to_be_bytes()));
    bytes
}

/// Entries that are no silence, and say nothing: a void frame, an empty entry, and two
/// frames that differ, one of which is good.
fn no_silences(good: &[u8]) -> [Vec<Vec<u8>>; 4] {
    let void = vec![1, 2, 3];
    [
        vec![void.clone()],
        vec![vec![]],
        vec![good.to_vec(), void],
        vec![good.to_vec(), vec![]],
    ]
}

/// Works a tray with these entries under each of the numbers.
fn work(c: &mut Controller, from: &[u8], frames: &[Vec<u8>]) {
    let of = |&n: &u8| frames.iter().map(move |frame| (n, frame.as_slice()));
    let entries: Vec<(u8, &[u8])> = from.iter().flat_map(of).collect();
    let tray = tray_from(c.image[ROUND], &entries);
    assert_eq!(c.tray(&tray), WORKED);
}

/// Request A7. Here and below, of four heard two reach a third and three two thirds.
#[test]
fn who_is_silent_in_round_1_counts_as_sender_of_init() {
    let mut c = of_four(1, [1, 2]);
    work(&mut c, &[], &[]);
    assert_eq!(echoes(&c), [3, 5, 7, 9]);
    for frames in no_silences(&INIT) {
        let mut c = of_four(1, [1, 2]);
        work(&mut c, &[3, 9], &frames);
        assert_eq!(echoes(&c), [5, 7], "{frames:?}");
    }
}

#[test]
fn who_is_silent_in_round_2_counts_as_sender_of_the_own_list() {
    let made = |from: &[u8], frames: &[Vec<u8>]| {
        let mut c = of_four(2, [1, 2]);
        work(&mut c, from, frames);
        (candidates(&c), echoes(&c))
    };
    assert_eq!(made(&[], &[]), (vec![11, 12], vec![11, 12]));
    let other = [roster(&[11])];
    assert_eq!(made(&[3, 5], &other), (vec![11], vec![11, 12]));
    for frames in no_silences(&other[0]) {
        assert_eq!(made(&[3], &frames), (vec![11, 12], vec![11, 12]));
        // In phase 0 nobody is a candidate then: it decides.
        assert_eq!(made(&[3, 5], &frames), (vec![], vec![11, 12]));
        assert_eq!(made(&[3, 5, 9], &frames), (vec![], vec![]));
    }
}

#[test]
fn who_is_silent_counts_as_sender_of_the_own_value() {
    for bit in [0, 1] {
        let said = |from: &[u8], frames: &[Vec<u8>]| {
            let mut c = of_four(3, [bit, bit]);
            work(&mut c, from, frames);
            c.image[SAID]
        };
        let other = [short(3, 3, 1 - bit)];
        assert_eq!(said(&[], &[]), bit);
        assert_eq!(said(&[5], &other), bit);
        assert_eq!(said(&[3, 5], &other), 2);
        assert_eq!(said(&[3, 5, 9], &other), 1 - bit);
        for frames in no_silences(&short(3, 3, bit)) {
            assert_eq!(said(&[9], &frames), bit);
            assert_eq!(said(&[5, 9], &frames), 2);
        }
    }
}

#[test]
fn who_is_silent_counts_as_sender_of_the_own_proposal() {
    let made = |bits: [u8; 2], from: &[u8], frames: &[Vec<u8>]| {
        let mut c = of_four(4, bits);
        work(&mut c, from, frames);
        (c.image[BIT], c.image[STRONG])
    };
    for bit in [0, 1] {
        let other = [short(4, 4, 1 - bit)];
        // It had the other bit, and proposed this one.
        assert_eq!(made([1 - bit, bit], &[], &[]), (bit, 1));
        assert_eq!(made([1 - bit, bit], &[3], &other), (bit, 1));
        // Proposals of both bits reach a third.
        assert_eq!(made([bit, bit], &[3, 5], &other), (bit, 0));
        for frames in no_silences(&short(4, 4, bit)) {
            assert_eq!(made([1 - bit, bit], &[3, 5], &frames), (bit, 0));
            assert_eq!(made([1 - bit, bit], &[3, 5, 9], &frames), (1 - bit, 0));
        }
        // None is a proposal too: the silent ones propose no bit.
        assert_eq!(made([bit, 2], &[], &[]), (bit, 0));
        assert_eq!(made([bit, 2], &[3], &other), (bit, 0));
        assert_eq!(made([bit, 2], &[3, 5], &other), (1 - bit, 0));
    }
}

#[test]
fn who_is_silent_counts_as_sender_of_the_own_list_in_a_turn() {
    let made = |from: &[u8], frames: &[Vec<u8>]| {
        let mut c = of_four(5, [1, 2]);
        work(&mut c, from, frames);
        let joined = candidates(&c).into_iter().filter(|&n| n > 9).collect();
        (joined, echoes(&c))
    };
    let joined_and_echoes = |joined: &[u8], echoes: &[u8]| (joined.to_vec(), echoes.to_vec());
    let both = joined_and_echoes(&[11, 12], &[11, 12]);
    assert_eq!(made(&[], &[]), both);
    let other = [turn(2, &[12, 13])];
    assert_eq!(made(&[3], &other), both);
    let mixed = joined_and_echoes(&[12], &[11, 12, 13]);
    assert_eq!(made(&[3, 9], &other), mixed);
    for frames in no_silences(&other[0]) {
        assert_eq!(made(&[3], &frames), both);
        let echoed = joined_and_echoes(&[], &[11, 12]);
        assert_eq!(made(&[3, 9], &frames), echoed);
        assert_eq!(made(&[3, 5, 9], &frames), joined_and_echoes(&[], &[]));
    }
}

#[test]
fn a_silent_king_has_no_opinion() {
    for bit in [0, 1] {
        let bit_after = |said: u8, from: &[u8], frames: &[Vec<u8>]| {
            let mut c = of_four(5, [bit, said]);
            work(&mut c, from, frames);
            c.image[BIT]
        };
        // Whatever opinion the own frame has: a sound state may have any.
        for said in [0, 1, 2] {
            assert_eq!(bit_after(said, &[], &[]), bit);
            assert_eq!(bit_after(said, &[3, 9], &[turn(1 - bit, &[])]), bit);
            assert_eq!(bit_after(said, &[5], &[turn(1 - bit, &[])]), 1 - bit);
        }
        for frames in no_silences(&turn(1 - bit, &[])) {
            assert_eq!(bit_after(1 - bit, &[5], &frames), bit);
        }
        // The own opinion counts where one is king oneself.
        let mut king = of_four(5, [bit, 1 - bit]);
        king.image[KING] = 7;
        work(&mut king, &[], &[]);
        assert_eq!(king.image[BIT], 1 - bit);
    }
}

#[test]
fn only_who_was_heard_before_is_silent() {
    // 9 is unheard and has no entry: of three heard, two values are two thirds.
    let mut c = of_four(3, [1, 1]);
    put_list(&mut c.image, 16, &[3, 5, 7]);
    c.image[796..800].copy_from_slice(&[1, 1, 0, 0]);
    work(&mut c, &[3], &[short(3, 3, 0)]);
    assert_eq!((reference::heard(&c.image), c.image[SAID]), (3, 1));
    // 8 is heard with this tray, by entries that say nothing: of five heard, three values
    // are no two thirds, and one more is.
    for frames in no_silences(&short(3, 3, 1)) {
        let mut c = of_four(3, [1, 1]);
        work(&mut c, &[3, 8], &frames);
        assert_eq!((reference::heard(&c.image), c.image[SAID]), (5, 2));
        let mut c = of_four(3, [1, 1]);
        work(&mut c, &[8], &frames);
        assert_eq!((reference::heard(&c.image), c.image[SAID]), (5, 1));
    }
}

/// Controller 7 of four candidates before phase 4, in which it decides, and a tray that
/// brings no fifth one: of four lists with 11 and 12, two are void.
fn before_decision(bit: u8) -> (Controller, Vec<u8>) {
    (of_four(14, [bit, 2]), tray_from(14, &[(3, &[]), (9, &[])]))
}

#[test]
fn the_call_that_decides_sends_nothing() {
    for bit in [0, 1] {
        let (mut c, tray) = before_decision(bit);
        let before = c.out;
        assert_eq!(c.tray(&tray), WORKED);
        assert_eq!((c.length, c.out), (0, before));
        assert_eq!(c.line(), format!("15 0 2 0 4 4 0 {bit}"));
        assert_eq!((c.image[BIT], c.image[SAID]), (bit, 2));
    }
}

#[test]
fn a_decided_one_is_refused_under_2() {
    let (mut c, tray) = before_decision(1);
    assert_eq!(c.tray(&tray), WORKED);
    assert_eq!(reference::decision(&c.image), 1);
    let (image, out) = (c.image, c.out);
    let trays = [empty_tray(15).to_vec(), empty_tray(14).to_vec(), vec![]];
    for tray in &trays {
        assert_eq!(c.tray(tray), 2);
        let Controller { image, out, length } = &mut c;
        assert_eq!(reference::tray(image, tray, &mut out[..263], length), 2);
        assert_eq!(reference::tray(image, tray, &mut [], length), 2);
    }
    assert_eq!((c.image, c.out, c.length), (image, out, 0));
    c.image[1023] = 1;
    assert_eq!(c.tray(&trays[0]), 1);
}

#[test]
fn a_decision_still_needs_room_for_a_frame() {
    let (mut c, tray) = before_decision(1);
    let Controller { image, out, length } = &mut c;
    assert_eq!(reference::tray(image, &tray, &mut out[..263], length), 3);
    assert_eq!(reference::decision(image), 2);
}

#[test]
fn a_decided_state_says_none_and_an_undecided_one_what_its_kind_allows() {
    for round in [1, 2, 3, 4, 5, 6, 193, 194, 195] {
        for bits in 0..(3 * 2 * 5) {
            let (decision, bit, said) = (bits % 3, bits / 3 % 2, bits / 6);
            let mut c = of_four(round, [0, if round % 3 == 0 { 0 } else { 2 }]);
            (c.image[BIT], c.image[SAID], c.image[DECISION]) = (bit, said, decision);
            let sound = match (decision, round) {
                (0 | 1, _) | (2, 1 | 2) => said == 2,
                (_, _) if round % 3 == 0 => said == bit,
                _ => said <= 2,
            };
            let shown = reference::round(&c.image) == u32::from(round);
            assert_eq!(shown, sound, "round {round} {bit} {said} {decision}");
        }
    }
}

/// Correct 5, 7, 9 and faulty 3, which sends init to 5 and 7 only; then to these a void
/// frame and to 9 a roster of just 3; then nothing.
#[test]
fn the_last_trial() {
    for bits in 0..8u8 {
        let numbers = [5, 7, 9];
        let mut line = numbers.map(|n| Controller::start(n.into(), bits >> (n / 2 - 2) & 1));
        let mut kings = Vec::new();
        for round in 1..15 {
            assert!(line.iter().all(|c| reference::decision(&c.image) == 2));
            let sent: Vec<Vec<u8>> = line.iter().map(|c| c.out[..c.length].to_vec()).collect();
            for (c, own) in line.iter_mut().zip(numbers) {
                let others = numbers.iter().copied().zip(sent.iter().map(Vec::as_slice));
                let mut entries: Vec<_> = others.filter(|&(n, _)| n != own).collect();
                let of_three = match (round, own) {
                    (1, 5 | 7) => Some(INIT.to_vec()),
                    (2, 5 | 7) => Some(vec![]),
                    (2, _) => Some(roster(&[3])),
                    _ => None,
                };
                entries.extend(of_three.iter().map(|frame| (3, frame.as_slice())));
                assert_eq!(c.tray(&tray_from(round, &entries)), WORKED);
            }
            if round == 2 || round == 5 {
                kings.push(line.each_ref().map(|c| reference::king(&c.image)));
                if round == 5 {
                    assert!(line.iter().all(|c| candidates(c) == [3, 5, 7, 9]));
                }
            }
        }
        assert_eq!(kings, [[5, 5, 3], [5, 5, 5]]);
        let decisions = line.each_ref().map(|c| reference::decision(&c.image));
        assert!(decisions[0] != 2 && decisions == [decisions[0]; 3]);
        assert!(line.iter().all(|c| c.length == 0));
    }
}
