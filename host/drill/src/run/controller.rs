//! One controller at work: its state's image, and what it sent.

use checks::fields::{Fields, IMAGE_LEN};
use checks::packing::{kind_of, MAX_FRAME, NONE, VALUE};

/// By which rules the correct ones go.
#[derive(Clone, Copy, Debug, PartialEq, Eq)]
pub enum Rule {
    /// Document 01's and 02's, on the compiled engine.
    Engine,
    /// The same but for the published method's stopping rule, on the reference: document
    /// 002 has a controller stop when it would name a king that it has named before.
    Printed,
}

#[derive(Clone)]
pub struct Controller {
    pub number: u32,
    rule: Rule,
    image: Vec<u8>,
    /// The frame of the present round; empty from the decision on, and of one that is stuck.
    pub sent: Vec<u8>,
    /// The last frame of an earlier round.
    pub earlier: Vec<u8>,
    /// The kings that it has named, for the printed rule.
    named: Vec<u32>,
}

impl Controller {
    /// Starts one; the number is not 0, and the bit is 0 or 1.
    pub fn start(rule: Rule, number: u32, bit: u8) -> Controller {
        let mut image = vec![0; IMAGE_LEN];
        let mut out = [0; MAX_FRAME];
        let mut length = 0;
        let start = match rule {
            Rule::Engine => engine::start,
            Rule::Printed => reference::start,
        };
        let answer = start(number, bit, &mut image, &mut out, &mut length);
        assert_eq!(answer, 0, "start of {number} with {bit}");
        Controller {
            number,
            rule,
            image,
            sent: out[..length].to_vec(),
            earlier: Vec::new(),
            named: Vec::new(),
        }
    }

    pub fn state(&self) -> Fields {
        Fields::of(&self.image)
    }

    /// Whether it sends nothing though it has not decided: it refused a round's tray.
    pub fn is_stuck(&self) -> bool {
        self.sent.is_empty() && self.state().undecided()
    }

    /// Hands over a tray, or what the cable took for one: 0 if it is worked, else the
    /// refusal, which changes nothing.
    pub fn hand(&mut self, tray: &[u8]) -> u8 {
        let mut out = [0; MAX_FRAME];
        let mut length = 0;
        let call = match self.rule {
            Rule::Engine => engine::tray,
            Rule::Printed => reference::tray,
        };
        let answer = call(&mut self.image, tray, &mut out, &mut length);
        if answer == 0 {
            self.earlier = std::mem::replace(&mut self.sent, out[..length].to_vec());
            if self.rule == Rule::Printed {
                self.stop_as_printed();
            }
        }
        answer
    }

    /// The printed rule: whoever would name a king again decides its bit and sends no more.
    /// Document 002 takes the candidate at place r modulo their count c. Here r is below c, or the
    /// reference has decided: who has not stopped has named r different candidates in r
    /// phases, so that r = c means all of them, and the next one was named before. With no
    /// candidate at all there is nobody to name, and the reference decides too.
    fn stop_as_printed(&mut self) {
        let mut state = self.state();
        if !state.undecided() || kind_of(state.round) != VALUE {
            return;
        }
        if !self.named.contains(&state.king) {
            self.named.push(state.king);
            return;
        }
        state.decision = state.bit;
        state.king = 0;
        state.said = NONE;
        self.image = state.image();
        self.sent.clear();
    }
}
