//! One call on the reference, on the engine and on the one that works in the image, and the
//! first difference.

use crate::calls::{Calls, Engine, InPlace, Reference};
use crate::copies::{self, copies};
use crate::edges::{self, edges};
use crate::fields::{Fields, IMAGE_LEN};
use crate::quiet::{self, ends, silences};
use crate::random::Random;
use crate::records::{self, steps};
use crate::{frames, states, trays};

/// How many trays a case hands to one state, one after the other.
const WALK: usize = 4;

/// The answer for a state that no tray moves on.
const ENDED: u8 = 2;

/// How many answers there are: 0, for accepted, and the refusals up to 13.
pub const ANSWERS: usize = 14;

/// How often each answer was given; how often a record of first rounds or the bit said was
/// broken in each way; for what a tray was refused under 2; and how often accepted trays
/// came to each edge of the rules, had each kind of copies and of silence and did each
/// thing to the record.
#[derive(Clone, Default)]
pub struct Histogram {
    pub start: [u64; ANSWERS],
    pub tray: [u64; ANSWERS],
    pub frame: [u64; ANSWERS],
    pub edges: [u64; edges::NAMES.len()],
    pub copies: [u64; copies::NAMES.len()],
    pub faults: [u64; records::FAULTS.len()],
    pub steps: [u64; records::STEPS.len()],
    pub said: [u64; quiet::FAULTS.len()],
    pub ends: [u64; quiet::ENDS.len()],
    pub silences: [u64; quiet::SILENCES.len()],
}

impl Histogram {
    pub fn calls(&self) -> u64 {
        let counts = [&self.start, &self.tray, &self.frame];
        counts.into_iter().flatten().sum()
    }

    pub fn add(&mut self, other: &Histogram) {
        add_all(&mut self.start, &other.start);
        add_all(&mut self.tray, &other.tray);
        add_all(&mut self.frame, &other.frame);
        add_all(&mut self.edges, &other.edges);
        add_all(&mut self.copies, &other.copies);
        add_all(&mut self.faults, &other.faults);
        add_all(&mut self.steps, &other.steps);
        add_all(&mut self.said, &other.said);
        add_all(&mut self.ends, &other.ends);
        add_all(&mut self.silences, &other.silences);
    }
}

fn add_all(counts: &mut [u64], more: &[u64]) {
    for (count, more) in counts.iter_mut().zip(more) {
        *count += more;
    }
}

/// What a call can change.
#[derive(Clone)]
struct Lent {
    image: Vec<u8>,
    out: Vec<u8>,
    length: usize,
}

/// Runs the case of one seed; the error says the call and the first difference.
pub fn case(seed: u64, counts: &mut Histogram) -> Result<(), String> {
    let mut random = Random::new(seed);
    let pool = states::pool(&mut random);
    frame(&mut random, &pool, counts)?;
    let mut lent = Lent {
        image: states::sound(&mut random, &pool).image(),
        out: random.bytes(300),
        length: 0,
    };
    if random.percent(40) {
        start(&mut random, &pool, &mut lent, counts)?;
    }
    if lent.image.len() != IMAGE_LEN {
        return Ok(());
    }
    expect_sound(true, &lent.image, "a sound state")?;
    match random.below(100) {
        0..=6 => states::damage(&mut random, &mut lent.image),
        7..=11 => break_record(&mut random, &mut lent.image, counts)?,
        12..=18 => break_said(&mut random, &mut lent.image, counts)?,
        _ => (),
    }
    for _ in 0..WALK {
        if tray(&mut random, &pool, &mut lent, counts)? == ENDED {
            break;
        }
    }
    Ok(())
}

/// Whether an image is sound as it was made to be: both tested ones show its round.
fn expect_sound(sound: bool, image: &[u8], what: &str) -> Result<(), String> {
    let rounds = [
        (Engine::NAME, Engine::answers(image)[1]),
        (InPlace::NAME, InPlace::answers(image)[1]),
    ];
    match rounds.into_iter().find(|&(_, round)| (round != 0) != sound) {
        None => Ok(()),
        Some((name, _)) => Err(format!("{what}: {name} takes it as sound: {}", !sound)),
    }
}

/// An image whose record is broken is not sound.
fn break_record(
    random: &mut Random,
    image: &mut [u8],
    counts: &mut Histogram,
) -> Result<(), String> {
    let Some(fault) = records::damage(random, image) else {
        return Ok(());
    };
    counts.faults[fault] += 1;
    expect_sound(false, image, records::FAULTS[fault])
}

/// An image with a bit said that it may not have is not sound.
fn break_said(random: &mut Random, image: &mut [u8], counts: &mut Histogram) -> Result<(), String> {
    let Some(fault) = quiet::damage(random, image) else {
        return Ok(());
    };
    counts.said[fault] += 1;
    expect_sound(false, image, quiet::FAULTS[fault])
}

/// A frame, held against a round.
fn frame(random: &mut Random, pool: &[u32], counts: &mut Histogram) -> Result<(), String> {
    let (bytes, round) = frames::frame_and_round(random, pool);
    let answer = Reference::frame(&bytes, round);
    let answers = [
        (Engine::NAME, Engine::frame(&bytes, round)),
        (InPlace::NAME, InPlace::frame(&bytes, round)),
    ];
    for (name, tested) in answers {
        differ(name, "answer", tested, answer)
            .map_err(|difference| format!("frame {bytes:02x?} in round {round}: {difference}"))?;
    }
    counts.frame[usize::from(answer)] += 1;
    Ok(())
}

/// A start; what it leaves in the image goes on into trays.
fn start(
    random: &mut Random,
    pool: &[u32],
    lent: &mut Lent,
    counts: &mut Histogram,
) -> Result<(), String> {
    let number = if random.percent(5) {
        0
    } else {
        random.pick(pool)
    };
    let bit = if random.percent(5) {
        random.byte()
    } else {
        random.bit()
    };
    if random.percent(5) {
        let length = random.pick(&[0, 1, 1023, 1025, 2000]);
        lent.image.resize(length, 7);
    }
    lend(random, lent);
    let answer = Call::Start { number, bit }
        .make_on_all(lent)
        .map_err(|difference| format!("start({number}, {bit}): {difference}"))?;
    counts.start[usize::from(answer)] += 1;
    Ok(())
}

/// A tray for the state in the image, or for another if that is not sound; the answer.
fn tray(
    random: &mut Random,
    pool: &[u32],
    lent: &mut Lent,
    counts: &mut Histogram,
) -> Result<u8, String> {
    let sound = Reference::answers(&lent.image)[1] != 0;
    let state = match sound {
        true => Fields::of(&lent.image),
        false => states::sound(random, pool),
    };
    let tray = trays::tray(random, pool, &state);
    lend(random, lent);
    let answer = Call::Tray(&tray).make_on_all(lent).map_err(|difference| {
        let (length, round) = (tray.len(), state.round);
        format!("tray of {length} bytes for a state of round {round}: {difference}")
    })?;
    counts.tray[usize::from(answer)] += 1;
    if answer == ENDED {
        let ended = ends(&state, lent.out.len()).map(u64::from);
        add_all(&mut counts.ends, &ended);
    }
    if answer == 0 {
        let came_to = edges(&state, &Fields::of(&lent.image)).map(u64::from);
        add_all(&mut counts.edges, &came_to);
        let had = copies(&tray, state.round).map(u64::from);
        add_all(&mut counts.copies, &had);
        let did = steps(&state, &tray).map(u64::from);
        add_all(&mut counts.steps, &did);
        let silent = silences(&state, &tray, &lent.image).map(u64::from);
        add_all(&mut counts.silences, &silent);
    }
    Ok(answer)
}

/// A new output buffer, often at the edge of what a frame needs, and any length.
fn lend(random: &mut Random, lent: &mut Lent) {
    let size = match random.below(20) {
        0 => random.within(0, 300),
        1 => random.within(262, 265),
        _ => random.within(264, 300),
    };
    lent.out.resize(size, random.byte());
    if size > 0 {
        lent.out[random.below(size)] = random.byte();
    }
    lent.length = random.below(1000);
}

/// A call that may change what is lent.
enum Call<'a> {
    Start { number: u32, bit: u8 },
    Tray(&'a [u8]),
}

impl Call<'_> {
    /// Makes the call on the reference and on both tested ones, and compares all that these
    /// answer, leave and show with what the reference does; the answer.
    fn make_on_all(&self, lent: &mut Lent) -> Result<u8, String> {
        let expected = self.make::<Reference>(lent);
        for made in [self.make::<Engine>(lent), self.make::<InPlace>(lent)] {
            made.compare(&expected)?;
        }
        *lent = expected.lent;
        Ok(expected.answer)
    }

    /// Makes the call on a copy of what is lent.
    fn make<C: Calls>(&self, lent: &Lent) -> Made {
        let mut lent = lent.clone();
        let Lent { image, out, length } = &mut lent;
        let answer = match *self {
            Call::Start { number, bit } => C::start(number, bit, image, out, length),
            Call::Tray(tray) => C::tray(image, tray, out, length),
        };
        let answers = C::answers(image);
        Made {
            name: C::NAME,
            answer,
            answers,
            record: places(answers[3])
                .map(|place| (place, C::first_heard(image, place)))
                .collect(),
            lent,
        }
    }
}

/// The first places, those around the end of heard and of the record, and some that are far
/// past both.
fn places(heard: u32) -> impl Iterator<Item = u32> {
    let far = [63, 64, 228, 256, 1 << 16, 1 << 30, u32::MAX];
    let near = [0, 1, heard / 2, heard.saturating_sub(1), heard];
    near.into_iter().chain(far)
}

/// What a call answered and left, and what the calls that show a state show then.
struct Made {
    /// Whose call it was.
    name: &'static str,
    answer: u8,
    lent: Lent,
    answers: [u32; 6],
    /// For each place asked for, the heard number and its first round.
    record: Vec<(u32, (u32, u32))>,
}

impl Made {
    /// The first difference to what the reference made.
    fn compare(&self, expected: &Made) -> Result<(), String> {
        let Made { name, lent, .. } = self;
        differ(name, "answer", self.answer, expected.answer)?;
        differ(name, "length", lent.length, expected.lent.length)?;
        differ_bytes(name, "image", &lent.image, &expected.lent.image)?;
        differ_bytes(name, "output", &lent.out, &expected.lent.out)?;
        let names = ["decision", "round", "king", "heard", "candidates", "echoes"];
        for (what, (shown, other)) in names.iter().zip(self.answers.iter().zip(expected.answers)) {
            differ(name, what, *shown, other)?;
        }
        for ((place, shown), (_, other)) in self.record.iter().zip(&expected.record) {
            let at = |difference| format!("at place {place} {difference}");
            differ(name, "heard number", shown.0, other.0).map_err(at)?;
            differ(name, "first round", shown.1, other.1).map_err(at)?;
        }
        Ok(())
    }
}

fn differ<T: PartialEq + std::fmt::Display>(
    name: &str,
    what: &str,
    tested: T,
    reference: T,
) -> Result<(), String> {
    match tested == reference {
        true => Ok(()),
        false => Err(format!("{what}: {name} {tested}, reference {reference}")),
    }
}

/// The bytes are as many: no call changes how long what it is lent is.
fn differ_bytes(name: &str, what: &str, tested: &[u8], reference: &[u8]) -> Result<(), String> {
    if tested == reference {
        return Ok(());
    }
    let mut pairs = tested.iter().zip(reference);
    let at = pairs.position(|(t, r)| t != r).expect("as many bytes");
    let what = format!("{what} byte {at}");
    differ(name, &what, tested[at], reference[at])
}
