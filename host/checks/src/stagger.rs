//! A plan by which correct controllers stop at different rounds.
//!
//! Where all have m candidates they decide in phase m. Some faulty numbers are late: such a
//! number is kept out of all candidates, but never out of all echoes, until phase m, when
//! some correct ones get it as a candidate and go on, while the others decide without it.
//! The next late number divides those that go on, in the phase after.
//!
//! For this just so many correct ones echo it that with the faulty ones' lists it comes to
//! a third, and without them it does not; in the phase before, so many that with these
//! lists it comes to two thirds. Who is to miss the number gets lists without it: silence
//! would count as the receiver's own list.

use std::cmp::Ordering;

use crate::packing::{third, two_thirds};
use crate::random::Random;

/// A late number. The correct ones that get it stand first among all of them.
struct Late {
    number: u32,
    /// How many echo it at first.
    carriers: usize,
    /// How many echo it before it joins.
    raised: usize,
    /// How many get it as a candidate, and in which phase.
    joined: usize,
    phase: usize,
}

impl Late {
    /// The count to which the number is to come at a receiver in the making of a phase;
    /// 0 where it is to come to none.
    fn aim(&self, phase: usize, receiver: usize, heard: usize) -> usize {
        let (first, count) = match (phase + 1).cmp(&self.phase) {
            Ordering::Less => (self.carriers, third(heard)),
            Ordering::Equal => (self.raised, third(heard)),
            Ordering::Greater if phase == self.phase => (self.joined, two_thirds(heard)),
            Ordering::Greater => (0, 0),
        };
        if receiver < first {
            count
        } else {
            0
        }
    }
}

pub struct Stagger {
    late: Vec<Late>,
}

impl Stagger {
    /// A plan for some of the faulty numbers, of which there is at least one.
    pub fn of(random: &mut Random, correct: usize, faulty: &[u32]) -> Stagger {
        let size = correct + faulty.len();
        let count = random.within(1, faulty.len());
        let (third, two_thirds) = (third(size), two_thirds(size));
        let least = |count: usize| count.saturating_sub(faulty.len()).max(1);
        let mut joined = correct;
        let mut late = Vec::new();
        for (place, number) in random.some(faulty, count).into_iter().enumerate() {
            joined = random.within(1, (joined - 1).max(1));
            let raised = match place {
                0 => random.within(least(two_thirds).max(third), two_thirds - 1),
                // Most are quiet by then, and count as each of the others.
                _ => joined,
            };
            late.push(Late {
                number,
                carriers: random.within(least(third), third - 1),
                raised,
                joined,
                phase: size - count + place,
            });
        }
        Stagger { late }
    }

    /// How many correct ones get a number's init: all, unless it is late.
    pub fn inits(&self, number: u32) -> Option<usize> {
        let late = self.late.iter().find(|late| late.number == number)?;
        Some(late.carriers)
    }

    /// Each late number with the count to which it is to come at a receiver in the making
    /// of a phase, where so many are heard.
    pub fn aims(&self, phase: usize, receiver: usize, heard: usize) -> Vec<(u32, usize)> {
        let aim = |late: &Late| (late.number, late.aim(phase, receiver, heard));
        self.late.iter().map(aim).collect()
    }
}
