//! With one fault in the reference, a third rounded down, the comparison and the networks
//! must find it.
//!
//! `cargo test --release -p checks --features fault --test fault -- --nocapture` prints
//! what was found.

use checks::calls::Reference;
use checks::seeds::{broken, compare};

#[test]
fn a_faulty_reference_is_found() {
    let mismatch = compare().err().expect("a mismatch");
    println!("found: {mismatch}");
}

/// Agreement breaks though few enough are faulty.
#[test]
fn a_network_of_faulty_references_breaks() {
    let found = broken::<Reference>(4, 1, "no agreement");
    println!("found: {found:?}");
    assert!(found.is_some());
}
