//! Entries in another order are received alike: document 02, A5.

#![cfg(not(feature = "fault"))]

use checks::calls::{Calls, Engine, InPlace};
use checks::packing::{pack, unpack};
use checks::random::Random;
use checks::{states, trays};

const CASES: u64 = 50_000;

/// What a call answers and leaves.
fn answer<C: Calls>(image: &[u8], tray: &[u8]) -> (u8, usize, Vec<u8>, [u8; 264]) {
    let (mut image, mut out, mut length) = (image.to_vec(), [7; 264], 0);
    let answer = C::tray(&mut image, tray, &mut out, &mut length);
    (answer, length, image, out)
}

#[test]
fn entries_in_another_order_get_the_same_answer() {
    order_does_not_matter::<Engine>();
}

#[test]
fn and_so_where_they_are_worked_in_the_image() {
    order_does_not_matter::<InPlace>();
}

fn order_does_not_matter<C: Calls>() {
    let (mut accepted, mut moved) = (0, 0);
    for seed in 0..CASES {
        let mut random = Random::new(seed);
        let pool = states::pool(&mut random);
        let state = states::sound(&mut random, &pool);
        let tray = trays::tray(&mut random, &pool, &state);
        let image = state.image();
        let given = answer::<C>(&image, &tray);
        // The tray may not be well packed, so that there are no entries.
        if matches!(given.0, 2 | 4) {
            continue;
        }
        let mut entries = unpack(&tray);
        random.shuffle(&mut entries);
        let round = u32::from_be_bytes([tray[0], tray[1], tray[2], tray[3]]);
        let other = pack(round, &entries);
        moved += u64::from(other != tray);
        accepted += u64::from(given.0 == 0);
        assert_eq!(given, answer::<C>(&image, &other), "seed {seed}");
    }
    println!(
        "{}: {moved} trays in another order, {accepted} accepted",
        C::NAME
    );
    assert!(moved >= 10_000 && accepted >= 10_000);
}
