//! How often a run is of one mind: document 02's A12, from the states of its value rounds.
//!
//! Before the first correct one decides, each correct one is in some phase the king that
//! all of them name. A number that is a candidate of one of them by then is everyone's in
//! the next phase, be it the one of the decision.

use std::collections::BTreeSet;

use crate::fields::Fields;

#[derive(Default)]
pub struct Minds {
    /// Whether a correct one has decided.
    decided: bool,
    /// The kings that all named, one for each phase of that kind.
    kings: Vec<u32>,
    /// Whoever was a candidate of some correct one in the last phase without a decision.
    candidates: BTreeSet<u32>,
    /// The first candidate that did not become everyone's, and when.
    lost: Option<(u32, u32)>,
}

impl Minds {
    /// Takes the correct ones' states after the making of a value round.
    pub fn phase(&mut self, states: &[Fields]) {
        if self.decided {
            return;
        }
        let has = |state: &Fields, x: &u32| state.candidates.contains(x);
        let mut known = self.candidates.iter();
        let lost = known.find(|x| !states.iter().all(|state| has(state, x)));
        self.lost = self.lost.or(lost.map(|&x| (x, states[0].round)));
        self.decided = !states.iter().all(Fields::undecided);
        self.candidates = states.iter().flat_map(|s| s.candidates.clone()).collect();
        if !self.decided && states.iter().all(|s| s.king == states[0].king) {
            self.kings.push(states[0].king);
        }
    }

    /// The claim at the run's end; in how many phases all named the same correct king.
    pub fn check(&self, correct: &[u32]) -> Result<usize, String> {
        if let Some((x, round)) = self.lost {
            return Err(format!("not relayed: {x}, in round {round}"));
        }
        match correct.iter().find(|number| !self.kings.contains(number)) {
            Some(number) => Err(format!("not of one mind on {number}: {:?}", self.kings)),
            None => Ok(self.kings.iter().filter(|k| correct.contains(k)).count()),
        }
    }
}
