//! The drill: a whole line of controllers on the compiled engine, with faulty ones that
//! misbehave to order, shown round by round.
//!
//! A trainer writes a scenario, a short text; docs/DRILL.md is the page for trainers.
//!
//! - [`scenario`] is what a scenario says; [`parse`] reads its text, [`mistake`] is what is
//!   wrong with one, [`write`] writes one out, and [`bundled`] has those that come with it;
//! - [`run`] runs the line, each controller by the engine's rules or by the printed one;
//! - [`facts`] is what is read off a run, [`verdict`] how it ended, [`story`] why;
//! - [`table`] is the table for a terminal, [`page`] the page for a browser, [`words`] the
//!   words of both and of scenarios;
//! - [`liar`] lies at random, and [`worst`] looks for the liar that does most harm;
//! - [`arguments`] are the words of the command, [`terminal`] is where it prints.

#![forbid(unsafe_code)]

pub mod arguments;
pub mod bundled;
pub mod facts;
pub mod liar;
pub mod mistake;
pub mod page;
pub mod parse;
pub mod run;
pub mod scenario;
pub mod story;
pub mod table;
pub mod terminal;
pub mod verdict;
pub mod words;
pub mod worst;
pub mod write;
