//! What the tests of the compiled engine share.
//!
//! `tests/differential.rs` compares the engine, and the one that works in the image,
//! with the reference call by call;
//! `tests/fault.rs` makes sure that a fault in the reference is found;
//! `tests/order.rs` hands over entries in another order;
//! `tests/networks.rs` runs whole networks with faulty controllers among them;
//! `tests/links.rs` adds up what one controller sends;
//! `tests/every.rs` follows everything that can happen in lines of four and five;
//! `tests/programs.rs` compiles and runs the C programs and looks into the archive;
//! `tests/format.rs` holds the bytes of docs/FORMAT.md to be true;
//! `tests/image.rs` holds the calls, the table and the soundness of docs/IMAGE.md;
//! `tests/session.rs` runs the session printer.
//!
//! - [`c`]: C programs, compiled and run;
//! - [`calls`]: the calls of each, behind one trait;
//! - [`random`]: a small random generator, so that a seed fixes a run;
//! - [`packing`]: frames and trays, packed by hand;
//! - [`fields`]: the fields of a state's image, for looking and for building;
//! - [`states`], [`trays`], [`frames`], [`voids`]: generators, sound, nearly sound and
//!   not;
//! - [`hex`]: bytes written in hex;
//! - [`page`]: tables and worked calls of the pages in docs/;
//! - [`compare`]: one call on all three, and the first difference;
//! - [`edges`]: what an accepted tray did; [`copies`], what it had of copies;
//! - [`records`]: damage to the record of first rounds, and what trays did to it;
//! - [`quiet`]: damage to the bit said, decided states, and silence in trays;
//! - [`network`], [`adversary`]: a whole network, and what its faulty ones send;
//!   [`stagger`], how they make correct ones stop at different rounds; [`minds`], how
//!   often the correct ones are of one mind; [`links`], how many bytes one sends;
//! - [`seeds`]: a case of the comparison or a run of a network, by its seed.

#![forbid(unsafe_code)]

pub mod adversary;
pub mod c;
pub mod calls;
pub mod compare;
pub mod copies;
pub mod edges;
pub mod fields;
pub mod frames;
pub mod hex;
pub mod links;
pub mod minds;
pub mod network;
pub mod packing;
pub mod page;
pub mod quiet;
pub mod random;
pub mod records;
pub mod seeds;
pub mod stagger;
pub mod states;
pub mod trays;
pub mod voids;
