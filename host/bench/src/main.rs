//! The benchmark: `cargo run --release -p bench` prints tables in Markdown.
//!
//! It times the compiled engine through its C calls, the reference and the one that
//! works in the image through the same calls on the same image bytes, and, as a floor,
//! one pass over the tray's bytes word by word. Each timed call starts from the same
//! image: copying it in costs all the same. Batches of the four take turns, so that a
//! noisy machine hits all of them, and the medians are printed. A second table has the
//! pass beside a plain sum, and a third compares the order of work that request A3 asks
//! for with the one that it names.

#![forbid(unsafe_code)]

mod inputs;
mod look;
mod measure;

use std::hint::black_box;

use inputs::{Input, SIZES};
use look::Lists;
use measure::{compare, measure, passes, Times};

fn main() {
    println!("Time per call (for a whole run, per run of one controller) in ns.\n");
    println!(
        "| input | n | bytes | engine | reference | in place | pass | engine / reference \
         | engine / in place | engine / pass | engine, to n = {} |",
        SIZES[0]
    );
    println!("|---|--:|--:|--:|--:|--:|--:|--:|--:|--:|--:|");
    for (name, make) in inputs::ALL {
        let mut smallest = None;
        for size in SIZES {
            let input = make(size);
            input.check();
            let times = measure(&input);
            let base = *smallest.get_or_insert(times.engine);
            print_row(name, size, &input, times, base);
        }
    }
    print_passes();
    print_comparison();
}

/// The pass beside a plain sum of the same bytes.
fn print_passes() {
    println!("\nOver the tray's bytes, a word at a time and by a plain sum.\n");
    println!("| input | n | bytes | pass | sum | engine / pass | engine / sum |");
    println!("|---|--:|--:|--:|--:|--:|--:|");
    for (name, make) in inputs::PASSED {
        for size in SIZES {
            let input = make(size);
            let times = passes(&input);
            println!(
                "| {name} | {size} | {} | {:.0} | {:.0} | {:.1} | {:.1} |",
                input.bytes(),
                times.pass,
                times.sum,
                times.engine_to_pass,
                times.engine_to_sum
            );
        }
    }
}

/// The walk of a whole call against looking through each list for each number.
fn print_comparison() {
    println!("\nA whole call, and only counting by looking through each list for each number.\n");
    println!(
        "| 64 lists of the same 64 numbers | call | looking through | call / looking through |"
    );
    println!("|---|--:|--:|--:|");
    for (name, make) in inputs::SAME_NUMBERS {
        let input = make(64);
        input.check();
        let lists = Lists::of(&input);
        let (call, look, ratio) = compare(&input, || black_box(&lists).look_through());
        println!("| {name} | {call:.0} | {look:.0} | {ratio:.2} |");
    }
}

/// The last column has the engine's time against that for the smallest network.
fn print_row(name: &str, size: usize, input: &Input, times: Times, smallest: f64) {
    println!(
        "| {name} | {size} | {} | {:.0} | {:.0} | {:.0} | {:.0} | {:.2} | {:.2} | {:.1} | {:.1} |",
        input.bytes(),
        times.engine,
        times.reference,
        times.in_place,
        times.pass,
        times.engine_to_reference,
        times.engine_to_in_place,
        times.engine_to_pass,
        times.engine / smallest,
    );
}
