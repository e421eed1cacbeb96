//! A rushing adversary: it sees all correct frames of a round, then sends for all
//! faulty controllers together.
//!
//! For each receiver it counts what that one will get from the correct ones and
//! adds just as much as brings a bit or a number to a third or two thirds of those
//! heard, or leaves it one short. It counts in what the receiver itself sent, once more
//! for each that is silent. It equivocates: receivers on two sides are told two things, by
//! a faulty king too. Faulty ones may join late, at some receivers later than at others or
//! never, fall silent, push a number late, omit frames, send void or empty ones, or send
//! two at once; or they bring numbers in such that correct ones stop at different rounds.

use crate::fields::Fields;
use crate::network::{Adversary, View};
use crate::packing::{
    frame, has_list, kind_of, third, two_thirds, Entry, INIT, NONE, PROPOSE, ROSTER, TURN,
};
use crate::random::Random;
use crate::stagger::Stagger;
use crate::states::{self, Sorted};
use crate::voids::damaged;

/// Numbers of a network: the correct ones with their inputs, and the faulty.
pub struct Members {
    pub correct: Vec<(u32, u8)>,
    pub faulty: Vec<u32>,
}

impl Members {
    /// Faulty numbers stand low (kings early), high (kings late), or anywhere.
    pub fn of(random: &mut Random, size: usize, faulty: usize) -> Members {
        let pool = states::pool(random);
        let mut numbers = random.some(&pool, size);
        match random.below(5) {
            0 | 1 => (),
            2 => numbers.reverse(),
            _ => random.shuffle(&mut numbers),
        }
        let correct = numbers.split_off(faulty);
        let bits = random.below(4);
        let bit_of = |(place, number)| match bits {
            0 => (number, 0),
            1 => (number, 1),
            2 => (number, (place % 2) as u8),
            _ => (number, random.bit()),
        };
        Members {
            correct: correct.into_iter().enumerate().map(bit_of).collect(),
            faulty: numbers,
        }
    }
}

/// How often the faulty ones of a run do each of these, in percent.
#[derive(Default)]
struct FaultRates {
    omit: usize,
    void: usize,
    empty: usize,
    repeat: usize,
    /// How often a count is left one short.
    short: usize,
}

impl FaultRates {
    /// Some or none of each; with none the plan is kept best.
    fn of(random: &mut Random) -> FaultRates {
        if random.percent(40) {
            return FaultRates::default();
        }
        let mut chance = || random.pick(&[0, 0, 10, 50]);
        FaultRates {
            omit: chance(),
            void: chance(),
            empty: chance(),
            repeat: chance(),
            short: chance(),
        }
    }
}

/// To which bit each receiver is pushed.
#[derive(Clone, Copy)]
enum Side {
    /// Any, each time.
    Any,
    /// One half to 0, the other half to 1.
    Halves,
    /// The king to its own bit and the others to the other one, with just the next
    /// king strong for it: so it holds out against the king, and the network stays
    /// divided into the next phase.
    Divide,
}

/// How the faulty ones of a run come in.
#[derive(Clone, Copy)]
enum Joining {
    FromStart,
    /// With an init to some only.
    Partial,
    /// At a round of its own.
    Late,
    /// At a round of its own for each correct one, or never.
    LateToSome,
}

/// A round in which no tray is worked.
const NEVER: u32 = u32::MAX;

/// A faulty controller's plan.
struct Faulty {
    number: u32,
    /// The round from which it sends at all, for each correct one.
    joins: Vec<u32>,
    /// The round from which it is silent, for each correct one.
    leaves: Vec<u32>,
    /// How many correct ones get its init.
    inits: usize,
}

impl Faulty {
    fn joining(random: &mut Random, number: u32, members: &Members, joining: Joining) -> Faulty {
        match joining {
            Joining::FromStart => Faulty::from_start(number, members),
            Joining::Partial => Faulty::partial(random, number, members),
            Joining::Late => Faulty::late(random, number, members),
            Joining::LateToSome => Faulty::late_to_some(random, number, members),
        }
    }

    /// One that sends to all from the start.
    fn from_start(number: u32, members: &Members) -> Faulty {
        Faulty {
            number,
            joins: vec![1; members.correct.len()],
            leaves: vec![NEVER; members.correct.len()],
            inits: members.correct.len(),
        }
    }

    /// The same, but it falls silent: to all at once, or to each in a round of its own, or
    /// never.
    fn falling_silent(mut self, random: &mut Random, members: &Members) -> Faulty {
        let together = some_round(random, members);
        let each = random.percent(50);
        for leaves in &mut self.leaves {
            *leaves = match random.below(3) {
                _ if !each => together,
                0 => NEVER,
                _ => some_round(random, members),
            };
        }
        self
    }

    /// One whose init goes to just so many that with the others' help its number
    /// comes to a third or two thirds of the rosters, or not without it.
    fn partial(random: &mut Random, number: u32, members: &Members) -> Faulty {
        let (correct, faulty) = (members.correct.len(), members.faulty.len());
        let size = correct + faulty;
        let inits = match random.below(3) {
            0 => random.below(correct + 1),
            1 => two_thirds(size) - random.within(1, faulty),
            _ => third(size).saturating_sub(random.within(1, faulty)),
        };
        Faulty {
            inits,
            ..Faulty::from_start(number, members)
        }
    }

    /// One that omits its first frames.
    fn late(random: &mut Random, number: u32, members: &Members) -> Faulty {
        let joins = some_round(random, members);
        Faulty {
            joins: vec![joins; members.correct.len()],
            ..Faulty::from_start(number, members)
        }
    }

    /// One that omits its first frames to some, and all of them to others.
    fn late_to_some(random: &mut Random, number: u32, members: &Members) -> Faulty {
        let mut joins = |_| match random.below(3) {
            0 => NEVER,
            _ => some_round(random, members),
        };
        Faulty {
            joins: members.correct.iter().map(&mut joins).collect(),
            ..Faulty::from_start(number, members)
        }
    }
}

/// A round of a run in which trays keep the guarantee.
fn some_round(random: &mut Random, members: &Members) -> u32 {
    let size = members.correct.len() + members.faulty.len();
    random.within(1, 2 + 3 * size) as u32
}

pub struct Rushing {
    random: Random,
    faulty: Vec<Faulty>,
    /// Numbers to bring into lists, each with the round from which to do so:
    /// the faulty ones, and some that nobody has.
    pushed: Vec<(u32, u32)>,
    rates: FaultRates,
    side: Side,
    stagger: Option<Stagger>,
}

/// What counts at a receiver in a round.
#[derive(Clone, Copy)]
struct Getting {
    receiver: usize,
    /// How many faulty ones send to it.
    present: usize,
    /// How many are heard then.
    heard: usize,
    /// How often what it sent itself counts: for itself, and for each that is silent.
    own_times: usize,
}

impl Getting {
    fn of(view: &View, receiver: usize, present: &[u32]) -> Getting {
        let own = view.correct[receiver].number;
        let sending = view.correct.iter().filter(|p| !p.is_quiet());
        let numbers = sending.map(|p| p.number);
        let others: Vec<u32> = numbers.filter(|&number| number != own).collect();
        let all = [&view.states[receiver].heard, present, &others];
        let all: Sorted = all.into_iter().flatten().copied().collect();
        let heard = all.0.len();
        Getting {
            receiver,
            present: present.len(),
            heard,
            own_times: heard - others.len() - present.len(),
        }
    }

    /// How many count as saying something, without the faulty ones that send; `says` is
    /// asked of each correct one.
    fn count(&self, view: &View, says: impl Fn(usize) -> bool) -> usize {
        let saying = (0..view.correct.len()).filter(|&i| says(i));
        let times = |i| match i == self.receiver {
            true => self.own_times,
            false => 1,
        };
        saying.map(times).sum()
    }
}

impl Rushing {
    /// All faulty ones come in in the same way, which the seed picks.
    pub fn new(seed: u64, members: &Members) -> Rushing {
        use Joining::{FromStart, Late, Partial};
        let ways = [Partial, Partial, Late, FromStart, FromStart, FromStart];
        Rushing::joining(seed, members, &ways)
    }

    /// Faulty ones that are silent at first, at some receivers perhaps for good.
    pub fn late(seed: u64, members: &Members) -> Rushing {
        Rushing::joining(seed, members, &[Joining::Late, Joining::LateToSome])
    }

    fn joining(seed: u64, members: &Members, ways: &[Joining]) -> Rushing {
        let mut random = Random::new(seed);
        let way = random.pick(ways);
        let silent = random.percent(30);
        let planned = |&number: &u32| {
            let faulty = Faulty::joining(&mut random, number, members, way);
            match silent {
                true => faulty.falling_silent(&mut random, members),
                false => faulty,
            }
        };
        let faulty = members.faulty.iter().map(planned).collect();
        Rushing {
            faulty,
            pushed: pushed(&mut random, members),
            rates: FaultRates::of(&mut random),
            side: some_side(&mut random),
            stagger: None,
            random,
        }
    }

    /// Faulty ones that make correct ones stop at different rounds.
    pub fn staggering(seed: u64, members: &Members) -> Rushing {
        if members.faulty.is_empty() {
            return Rushing::new(seed, members);
        }
        let mut random = Random::new(seed);
        let stagger = Stagger::of(&mut random, members.correct.len(), &members.faulty);
        let planned = |&number: &u32| Faulty {
            inits: stagger.inits(number).unwrap_or(members.correct.len()),
            ..Faulty::from_start(number, members)
        };
        Rushing {
            faulty: members.faulty.iter().map(planned).collect(),
            pushed: Vec::new(),
            rates: match random.percent(70) {
                true => FaultRates::default(),
                false => FaultRates::of(&mut random),
            },
            side: some_side(&mut random),
            stagger: Some(stagger),
            random,
        }
    }

    /// The faulty ones that send to a receiver in a round.
    fn present(&mut self, round: u32, receiver: usize) -> Vec<u32> {
        let (random, omit) = (&mut self.random, self.rates.omit);
        let mut sends = |one: &&Faulty| {
            let reaches = kind_of(round) != INIT || receiver < one.inits;
            let while_there = one.joins[receiver]..one.leaves[receiver];
            while_there.contains(&round) && reaches && !random.percent(omit)
        };
        let present = self.faulty.iter().filter(&mut sends);
        present.map(|one| one.number).collect()
    }

    /// The bit that this receiver is to be pushed to.
    fn side(&mut self, view: &View, receiver: usize) -> u8 {
        match self.side {
            Side::Any => self.random.bit(),
            Side::Halves => (receiver % 2) as u8,
            Side::Divide => divide(view, receiver),
        }
    }

    /// A third or two thirds of those that a receiver hears, or one short.
    fn aim(&mut self, heard: usize) -> usize {
        let counts = [third(heard), two_thirds(heard), two_thirds(heard)];
        self.random.pick(&counts) - usize::from(self.random.percent(self.rates.short))
    }

    /// The bits for one receiver: the pushed bit comes to the count aimed at, and
    /// the faulty ones that are left say the other one or none.
    fn bits(&mut self, view: &View, getting: Getting) -> Vec<u8> {
        let pushed = self.side(view, getting.receiver);
        let present = getting.present;
        if matches!(self.side, Side::Divide) {
            return vec![pushed; present];
        }
        let says = |i: usize| view.correct[i].sent.get(5) == Some(&pushed);
        let from_correct = getting.count(view, says);
        let aim = self.aim(getting.heard);
        let count = aim.saturating_sub(from_correct).min(present);
        let rest = self.random.pick(&[NONE, 1 - pushed]);
        let mut bits = vec![pushed; count];
        bits.resize(present, rest);
        self.random.shuffle(&mut bits);
        bits
    }

    /// The opinions for one receiver. Its king, if it is one of them, tells it what
    /// its side is to hold, or speaks against its bit.
    fn opinions(&mut self, view: &View, receiver: usize, present: &[u32]) -> Vec<u8> {
        let side = self.side(view, receiver);
        let against = 1 - view.states[receiver].bit;
        let king = view.states[receiver].king;
        let random = &mut self.random;
        let mut opinion = |&n: &u32| match n == king {
            true if random.percent(85) => side,
            true => against,
            false => random.below(3) as u8,
        };
        present.iter().map(&mut opinion).collect()
    }

    /// The numbers to bring into the lists for a receiver, each with the count to which
    /// it is to come.
    fn aims(&mut self, view: &View, getting: Getting) -> Vec<(u32, usize)> {
        if let Some(stagger) = &self.stagger {
            let phase = (view.round as usize - 2) / 3;
            return stagger.aims(phase, getting.receiver, getting.heard);
        }
        let now = self.pushed.iter().filter(|(_, from)| *from <= view.round);
        let pushed = now.map(|&(number, _)| number);
        let correct = view.correct.iter().map(|p| p.number);
        let all: Vec<u32> = pushed.chain(correct).collect();
        let aim = |number| (number, self.aim(getting.heard));
        all.into_iter().map(aim).collect()
    }

    /// The lists for one receiver: each number comes to the count aimed at.
    fn lists(&mut self, view: &View, getting: Getting) -> Vec<Vec<u32>> {
        let present = getting.present;
        let candidates = &view.states[getting.receiver].candidates;
        let mut lists = vec![Vec::new(); present];
        for (number, aim) in self.aims(view, getting) {
            if candidates.binary_search(&number).is_ok() {
                continue;
            }
            let has = |i: usize| view.lists[i].binary_search(&number).is_ok();
            let count = aim.saturating_sub(getting.count(view, has));
            let first = self.random.below(present.max(1));
            for at in (first..present).chain(0..first).take(count) {
                lists[at].push(number);
            }
        }
        let sorted = |list: Vec<u32>| fitting(list.into_iter().collect::<Sorted>().0);
        lists.into_iter().map(sorted).collect()
    }

    /// Damages or repeats what one faulty controller sends.
    fn damage_or_repeat(&mut self, entry: Entry, round: u32) -> Vec<Entry> {
        let mut entries = vec![entry];
        if self.random.percent(self.rates.repeat) {
            let bytes = frame(round, self.random.below(3) as u8, &[]);
            entries.push(Entry {
                bytes,
                ..entries[0]
            });
        }
        for entry in &mut entries {
            if self.random.percent(self.rates.empty) {
                entry.bytes.clear();
            } else if self.random.percent(self.rates.void) {
                entry.bytes = damaged(&mut self.random, &entry.bytes, round);
            }
        }
        entries
    }
}

fn some_side(random: &mut Random) -> Side {
    random.pick(&[Side::Any, Side::Halves, Side::Divide, Side::Divide])
}

/// No numbers, or the faulty ones and some that nobody has; from the start, or
/// each from a round of its own.
fn pushed(random: &mut Random, members: &Members) -> Vec<(u32, u32)> {
    let manner = random.below(3);
    if manner == 0 {
        return Vec::new();
    }
    let made_up: Vec<u32> = (0..3).map(|_| random.number().max(1)).collect();
    let mut from = |&number: &u32| match manner {
        1 => (number, 1),
        _ => (number, some_round(random, members)),
    };
    members
        .faulty
        .iter()
        .chain(&made_up)
        .map(&mut from)
        .collect()
}

/// To which bit a receiver is pushed if the network is to stay divided; none where
/// it is best to say nothing.
fn divide(view: &View, receiver: usize) -> u8 {
    let state = &view.states[receiver];
    let next = is_next_king(view, state);
    let kind = kind_of(view.round);
    match view.states.iter().find(|s| s.number == state.king) {
        Some(king) if king.number == state.number => king.bit,
        Some(king) if next || kind != PROPOSE => 1 - king.bit,
        // A king of theirs sets the halves against each other, and the last one
        // before a correct king sets that one against the rest.
        None if kind == TURN && is_correct(view, after_king(state)) => u8::from(next),
        None if kind == TURN => (receiver % 2) as u8,
        _ => NONE,
    }
}

fn is_correct(view: &View, number: Option<&u32>) -> bool {
    view.states.iter().any(|s| Some(&s.number) == number)
}

/// The candidate that is king after the present one.
fn after_king(state: &Fields) -> Option<&u32> {
    state.candidates.iter().find(|&&c| c > state.king)
}

/// Whether a controller is the first correct one among its candidates after its
/// king, by which kings go; after the last king, the first one of all.
fn is_next_king(view: &View, state: &Fields) -> bool {
    let candidates = state.candidates.iter();
    let correct: Vec<&u32> = candidates.filter(|&c| is_correct(view, Some(c))).collect();
    let later = correct.iter().find(|&&&c| c > state.king);
    later.or(correct.first()) == Some(&&state.number)
}

/// As much of a list as a frame has room for.
fn fitting(mut list: Vec<u32>) -> Vec<u32> {
    list.truncate(64);
    list
}

impl Adversary for Rushing {
    fn entries(&mut self, view: &View, receiver: usize) -> Vec<Entry> {
        let round = view.round;
        let present = self.present(round, receiver);
        let getting = Getting::of(view, receiver, &present);
        let kind = kind_of(round);
        let bits = match kind {
            INIT | ROSTER => vec![NONE; present.len()],
            TURN => self.opinions(view, receiver, &present),
            _ => self.bits(view, getting),
        };
        let lists = match has_list(kind) {
            true => self.lists(view, getting),
            false => vec![Vec::new(); present.len()],
        };
        let mut entries = Vec::new();
        for ((&sender, &bit), list) in present.iter().zip(&bits).zip(&lists) {
            let bytes = frame(round, bit, list);
            entries.extend(self.damage_or_repeat(Entry { sender, bytes }, round));
        }
        entries
    }
}
