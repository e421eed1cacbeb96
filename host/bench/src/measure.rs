//! Medians over batches that take turns.

use std::hint::black_box;
use std::time::{Duration, Instant};

use checks::calls::{Engine, InPlace, Reference};

use crate::inputs::{Input, Lent};

/// Batches are many and short, so that most of them are not interrupted.
const BATCHES: usize = 401;
const BATCH_TIME: Duration = Duration::from_micros(200);

/// Nanoseconds for one call or one pass, and how often the engine's time is the
/// others'. All are medians; a ratio is taken between batches that follow one
/// another, where the machine is most alike.
#[derive(Clone, Copy)]
pub struct Times {
    pub engine: f64,
    pub reference: f64,
    pub in_place: f64,
    pub pass: f64,
    pub engine_to_reference: f64,
    pub engine_to_in_place: f64,
    pub engine_to_pass: f64,
}

pub fn measure(input: &Input) -> Times {
    let (mut first, mut second, mut third) = (Lent::new(), Lent::new(), Lent::new());
    let [engine, reference, in_place, pass] = take_turns([
        &mut || u64::from(black_box(input).work::<Engine>(&mut first)),
        &mut || u64::from(black_box(input).work::<Reference>(&mut second)),
        &mut || u64::from(black_box(input).work::<InPlace>(&mut third)),
        &mut || black_box(input).trays.iter().map(|tray| pass(tray)).sum(),
    ]);
    Times {
        engine_to_reference: median(ratios(&engine, &reference)),
        engine_to_in_place: median(ratios(&engine, &in_place)),
        engine_to_pass: median(ratios(&engine, &pass)),
        engine: median(engine),
        reference: median(reference),
        in_place: median(in_place),
        pass: median(pass),
    }
}

/// The engine's time against the two ways to go over the bytes.
#[derive(Clone, Copy)]
pub struct Passes {
    pub pass: f64,
    pub sum: f64,
    pub engine_to_pass: f64,
    pub engine_to_sum: f64,
}

pub fn passes(input: &Input) -> Passes {
    let mut lent = Lent::new();
    let over = |sum: fn(&[u8]) -> u64| black_box(input).trays.iter().map(|tray| sum(tray)).sum();
    let [engine, pass, sum] = take_turns([
        &mut || u64::from(black_box(input).work::<Engine>(&mut lent)),
        &mut || over(pass),
        &mut || over(plain_sum),
    ]);
    Passes {
        engine_to_pass: median(ratios(&engine, &pass)),
        engine_to_sum: median(ratios(&engine, &sum)),
        pass: median(pass),
        sum: median(sum),
    }
}

/// The engine's time for a call, that of another way to count its lists, and how
/// often the first is the second.
pub fn compare(input: &Input, mut other: impl FnMut() -> u64) -> (f64, f64, f64) {
    let mut lent = Lent::new();
    let [engine, other] = take_turns([
        &mut || u64::from(black_box(input).work::<Engine>(&mut lent)),
        &mut other,
    ]);
    let ratio = median(ratios(&engine, &other));
    (median(engine), median(other), ratio)
}

/// The times of each call, in batches that take turns.
fn take_turns<const N: usize>(mut calls: [&mut dyn FnMut() -> u64; N]) -> [Vec<f64>; N] {
    let counts = calls.each_mut().map(calls_in_a_batch);
    let mut times = [const { Vec::new() }; N];
    for _ in 0..BATCHES {
        for ((call, count), times) in calls.iter_mut().zip(counts).zip(&mut times) {
            times.push(batch(call, count));
        }
    }
    times
}

fn ratios(times: &[f64], others: &[f64]) -> Vec<f64> {
    times.iter().zip(others).map(|(a, b)| a / b).collect()
}

/// One pass over the bytes, one word at a time: `black_box` keeps the compiler from
/// taking several words in one instruction.
fn pass(bytes: &[u8]) -> u64 {
    sum_of(bytes, black_box)
}

/// The same sum as the compiler likes it, several words in one instruction.
fn plain_sum(bytes: &[u8]) -> u64 {
    sum_of(bytes, |word| word)
}

#[inline(always)]
fn sum_of(bytes: &[u8], see: impl Fn(u64) -> u64) -> u64 {
    let mut words = bytes.chunks_exact(8);
    let mut sum: u64 = 0;
    for word in &mut words {
        let word = u64::from_ne_bytes(word.try_into().expect("8 bytes"));
        sum = sum.wrapping_add(see(word));
    }
    let rest = words.remainder().iter().map(|&byte| u64::from(byte));
    sum.wrapping_add(rest.sum())
}

/// How many calls take about as long as a batch shall; also warms up.
fn calls_in_a_batch(call: &mut impl FnMut() -> u64) -> u32 {
    let begin = Instant::now();
    let mut calls = 0;
    while begin.elapsed() < BATCH_TIME {
        black_box(call());
        calls += 1;
    }
    calls
}

/// The time per call in a batch, in nanoseconds.
fn batch(call: &mut impl FnMut() -> u64, calls: u32) -> f64 {
    let begin = Instant::now();
    for _ in 0..calls {
        black_box(call());
    }
    begin.elapsed().as_nanos() as f64 / f64::from(calls)
}

fn median(mut times: Vec<f64>) -> f64 {
    times.sort_by(f64::total_cmp);
    times[times.len() / 2]
}
