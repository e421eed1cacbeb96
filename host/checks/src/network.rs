//! A whole network: correct controllers on an engine, and faulty ones among them.
//! Correct is what document 01 calls proper.
//!
//! Each round, the adversary sees every correct frame and state before it sends.
//! The trays that are handed over keep the guarantee of document 01's run, with document
//! 02's word on those that have gone quiet: a correct one sends nothing from its decision
//! on, has no entry in any tray and works none. The checks are that run's claims:
//! agreement, a decision that is some correct one's input, the deadline, a decision that
//! stays, and no refusal but under 3; and, of a quiet one, that it writes nothing and
//! refuses every tray under 2. After each round each state's record of first rounds is
//! held against the trays handed over; at the end it is seen how often all were of one
//! mind, and how much each has sent.

use std::collections::BTreeMap;
use std::marker::PhantomData;

use crate::calls::Calls;
use crate::fields::{Fields, IMAGE_LEN};
use crate::links::limit;
use crate::minds::Minds;
use crate::packing::{numbers_in, pack, unpack, Entry, MAX_FRAME, NONE};
use crate::random::Random;
use crate::trays;

/// A correct controller: its input, its state, and the frame that it sent last.
#[derive(Clone)]
pub struct Correct {
    pub number: u32,
    pub input: u8,
    pub image: Vec<u8>,
    /// Empty if it has decided: it sends nothing then.
    pub sent: Vec<u8>,
    /// How many bytes it has sent, this frame included.
    bytes_sent: usize,
    /// For each number, the round of the first worked tray with an entry under it; 0 for
    /// the own one. It is kept from the trays alone.
    first_rounds: BTreeMap<u32, u32>,
}

impl Correct {
    pub fn fields(&self) -> Fields {
        Fields::of(&self.image)
    }

    /// Whether it has decided, so that it sends no more.
    pub fn is_quiet(&self) -> bool {
        self.sent.is_empty()
    }

    /// Notes who has an entry in a tray that was worked.
    fn worked(&mut self, tray: &[u8], round: u32) {
        for entry in unpack(tray) {
            self.first_rounds.entry(entry.sender).or_insert(round);
        }
    }

    /// The state's record, as it was read or shown, is what the trays gave.
    fn check_record(&self, record: &[(u32, u32)]) -> Result<(), String> {
        let expected = self.first_rounds.iter().map(|(&n, &round)| (n, round));
        match expected.eq(record.iter().copied()) {
            true => Ok(()),
            false => Err(format!(
                "{}: first rounds {record:?}, but by the trays {:?}",
                self.number, self.first_rounds
            )),
        }
    }
}

/// All that the adversary sees before it sends.
pub struct View {
    pub round: u32,
    pub correct: Vec<Correct>,
    /// The list in each correct one's frame; empty for a quiet one.
    pub lists: Vec<Vec<u32>>,
    pub states: Vec<Fields>,
}

/// Who sends for the faulty ones: what one receiver gets from them in one round.
pub trait Adversary {
    fn entries(&mut self, view: &View, receiver: usize) -> Vec<Entry>;
}

/// What the adversary brought about in a run.
#[derive(Clone, Copy, Default)]
pub struct Seen {
    /// Whether correct ones that were not quiet named different kings in a round.
    pub kings_differed: bool,
    /// The last round whose making brought a correct one a new candidate.
    pub last_join: u32,
    /// The last round after which correct ones held different bits.
    pub last_divided: u32,
    /// How many numbers correct ones first heard after round 1, by their records at the
    /// deadline, each counted for each of them.
    pub heard_late: usize,
    /// How many numbers some correct ones had heard by the deadline, and others not.
    pub heard_by_some: usize,
    /// The rounds in which the first and the last correct one went quiet.
    pub stops: Option<(u32, u32)>,
    /// In how many phases more than there are correct ones all named the same correct
    /// king, before the first decision.
    pub more_minds: usize,
    /// The most bytes that a correct one sent.
    pub most_sent: usize,
}

impl Seen {
    /// Whether correct ones went quiet in different rounds.
    pub fn stopped_apart(&self) -> bool {
        self.stops.is_some_and(|(first, last)| first < last)
    }

    /// Notes that one went quiet; rounds come in order.
    fn stop(&mut self, round: u32) {
        let (first, _) = self.stops.unwrap_or((round, round));
        self.stops = Some((first, round));
    }
}

pub struct Network<C> {
    pub correct: Vec<Correct>,
    pub seen: Seen,
    /// How many there are, the faulty ones included.
    size: usize,
    round: u32,
    minds: Minds,
    random: Random,
    engine: PhantomData<C>,
}

impl<C: Calls> Network<C> {
    /// Starts each correct one with its number and bit.
    pub fn start(correct: &[(u32, u8)], faulty: usize, seed: u64) -> Result<Network<C>, String> {
        let started = |&(number, input): &(u32, u8)| {
            let mut image = vec![0; IMAGE_LEN];
            let mut out = [0; MAX_FRAME];
            let mut length = 0;
            match C::start(number, input, &mut image, &mut out, &mut length) {
                0 => Ok(Correct {
                    number,
                    input,
                    image,
                    sent: out[..length].to_vec(),
                    bytes_sent: length,
                    first_rounds: BTreeMap::from([(number, 0)]),
                }),
                refusal => Err(format!("start of {number} refused under {refusal}")),
            }
        };
        Ok(Network {
            correct: correct.iter().map(started).collect::<Result<_, _>>()?,
            seen: Seen::default(),
            size: correct.len() + faulty,
            round: 1,
            minds: Minds::default(),
            random: Random::new(seed),
            engine: PhantomData,
        })
    }

    /// The last round in which each one must have decided.
    pub fn deadline(&self) -> u32 {
        3 + 3 * self.size as u32
    }

    /// Runs until all are quiet, at most to the deadline, and on past it.
    pub fn run(&mut self, adversary: &mut impl Adversary) -> Result<(), String> {
        while self.round < self.deadline() && !self.correct.iter().all(Correct::is_quiet) {
            self.step(adversary)?;
        }
        self.check_end()?;
        self.check_shown()?;
        self.check_minds()?;
        self.check_links()?;
        self.go_on()
    }

    /// Carries the frames of one round to every correct one that is not quiet.
    pub fn step(&mut self, adversary: &mut impl Adversary) -> Result<(), String> {
        let view = self.view();
        for receiver in 0..self.correct.len() {
            if self.correct[receiver].is_quiet() {
                if self.random.percent(30) {
                    self.refuse_quiet(receiver, &view)?;
                }
                continue;
            }
            let tray = self.guaranteed(&view, adversary, receiver);
            if self.random.percent(10) {
                self.refuse(receiver, &tray)?;
            }
            self.accept(receiver, &tray)?;
        }
        self.round += 1;
        self.record(&view.states);
        Ok(())
    }

    fn view(&self) -> View {
        View {
            round: self.round,
            correct: self.correct.clone(),
            lists: self.correct.iter().map(|p| numbers_in(&p.sent)).collect(),
            states: self.correct.iter().map(Correct::fields).collect(),
        }
    }

    /// Notes what this round's step brought about.
    fn record(&mut self, before: &[Fields]) {
        let now: Vec<Fields> = self.correct.iter().map(Correct::fields).collect();
        let mut steps = before.iter().zip(&now);
        let mut kings = now.iter().filter(|s| s.undecided()).map(|s| s.king);
        let first = kings.next();
        self.seen.kings_differed |= kings.any(|king| Some(king) != first);
        if steps.any(|(b, n)| n.candidates.len() > b.candidates.len()) {
            self.seen.last_join = self.round;
        }
        if now.iter().any(|s| s.bit != now[0].bit) {
            self.seen.last_divided = self.round;
        }
        if self.round % 3 == 0 {
            self.minds.phase(&now);
        }
    }

    /// There were phases enough of one mind. Also notes how many more.
    fn check_minds(&mut self) -> Result<(), String> {
        let numbers: Vec<u32> = self.correct.iter().map(|p| p.number).collect();
        self.seen.more_minds = self.minds.check(&numbers)? - numbers.len();
        Ok(())
    }

    /// None sent more than a line of this size allows. Also notes how much it was.
    fn check_links(&mut self) -> Result<(), String> {
        let limit = limit(self.size);
        let sent = self.correct.iter().map(|p| p.bytes_sent);
        self.seen.most_sent = sent.max().unwrap_or(0);
        match self.seen.most_sent <= limit {
            true => Ok(()),
            false => Err(format!("sent {} bytes of {limit}", self.seen.most_sent)),
        }
    }

    /// The calls show the records. Also notes who was heard late, or not by all.
    fn check_shown(&mut self) -> Result<(), String> {
        let mut hearers: BTreeMap<u32, usize> = BTreeMap::new();
        for correct in &self.correct {
            let record = C::record(&correct.image);
            correct.check_record(&record)?;
            for (number, round) in record {
                *hearers.entry(number).or_default() += 1;
                self.seen.heard_late += usize::from(round > 1);
            }
        }
        let all = self.correct.len();
        self.seen.heard_by_some = hearers.values().filter(|&&hear| hear < all).count();
        Ok(())
    }

    /// A tray that keeps the guarantee: every frame of another correct one as it was
    /// sent, sometimes twice, with what the adversary sends, in any order.
    fn guaranteed(
        &mut self,
        view: &View,
        adversary: &mut impl Adversary,
        receiver: usize,
    ) -> Vec<u8> {
        let mut entries = adversary.entries(view, receiver);
        self.add_correct(view, receiver, &mut entries);
        pack(view.round, &entries)
    }

    /// Puts the frames of the other correct ones in; a quiet one has none.
    fn add_correct(&mut self, view: &View, receiver: usize, entries: &mut Vec<Entry>) {
        let own = view.correct[receiver].number;
        let sends = |other: &&Correct| other.number != own && !other.is_quiet();
        for other in view.correct.iter().filter(sends) {
            let copies = if self.random.percent(3) { 2 } else { 1 };
            for _ in 0..copies {
                entries.push(Entry {
                    sender: other.number,
                    bytes: other.sent.clone(),
                });
            }
        }
        match self.random.below(3) {
            0 => self.random.shuffle(entries),
            1 => entries.sort_by_key(|entry| entry.sender),
            _ => (),
        }
    }

    /// Refused calls in between: each leaves the state and the output as they are.
    fn refuse(&mut self, receiver: usize, tray: &[u8]) -> Result<(), String> {
        let junk_length = self.random.below(100);
        let junk = self.random.bytes(junk_length);
        let other_round = pack(self.round + 1, &[]);
        let calls: [(&[u8], usize); 4] = [
            (&junk, MAX_FRAME),
            (&tray[..tray.len() - 1], MAX_FRAME),
            (&other_round, 300),
            (tray, self.random.below(MAX_FRAME)),
        ];
        for (bytes, room) in calls {
            let answer = self.refused(receiver, bytes, room)?;
            if room < MAX_FRAME && answer != 3 {
                let number = self.correct[receiver].number;
                return Err(format!("{number}: {room} bytes of output gave {answer}"));
            }
        }
        Ok(())
    }

    /// Hands a quiet one a tray with the others' frames, one for its state and one of
    /// junk, with any room for output: each is refused under 2.
    fn refuse_quiet(&mut self, receiver: usize, view: &View) -> Result<(), String> {
        let mut entries = Vec::new();
        self.add_correct(view, receiver, &mut entries);
        let pool: Vec<u32> = (1..=100).collect();
        let state = self.correct[receiver].fields();
        let calls = [
            pack(self.round, &entries),
            trays::tray(&mut self.random, &pool, &state),
            self.random.bytes(20),
        ];
        for tray in calls {
            let room = self.random.pick(&[0, MAX_FRAME - 1, MAX_FRAME, 300]);
            let answer = self.refused(receiver, &tray, room)?;
            if answer != 2 {
                let number = self.correct[receiver].number;
                return Err(format!("{number} is quiet, and a tray gave {answer}"));
            }
        }
        Ok(())
    }

    /// Hands over a tray that must be refused, with so much room for output; the answer.
    /// State and output keep every byte.
    fn refused(&mut self, receiver: usize, tray: &[u8], room: usize) -> Result<u8, String> {
        let correct = &self.correct[receiver];
        let mut image = correct.image.clone();
        let before = self.random.bytes(room);
        let mut out = before.clone();
        let mut length = 1;
        let answer = C::tray(&mut image, tray, &mut out, &mut length);
        let kept = image == correct.image && out == before && length == 0;
        match answer != 0 && kept {
            true => Ok(answer),
            false => Err(format!(
                "{}: a call to refuse gave {answer}, kept {kept}",
                correct.number
            )),
        }
    }

    /// Hands over a tray that keeps the guarantee: it must be accepted.
    fn accept(&mut self, receiver: usize, tray: &[u8]) -> Result<(), String> {
        let correct = &mut self.correct[receiver];
        let (number, round) = (correct.number, self.round);
        let mark = self.random.byte();
        let mut out = [mark; MAX_FRAME];
        let mut length = 1;
        let answer = C::tray(&mut correct.image, tray, &mut out, &mut length);
        if answer != 0 {
            return Err(format!("{number} refused round {round} under {answer}"));
        }
        let [decision, now, ..] = C::answers(&correct.image);
        if now != round + 1 {
            return Err(format!("{number} made round {now} from {round}"));
        }
        if out[length..].iter().any(|&byte| byte != mark) {
            return Err(format!("{number} wrote past its {length} bytes"));
        }
        correct.sent = out[..length].to_vec();
        correct.bytes_sent += length;
        correct.worked(tray, round);
        let state = correct.fields();
        correct.check_record(&state.record())?;
        match decision {
            2 if C::frame(&correct.sent, now) != 0 => {
                Err(format!("{number} sent no frame of round {now}"))
            }
            2 => Ok(()),
            _ if length > 0 || (state.said, state.king) != (NONE, 0) => {
                Err(format!("{number} decided in round {now}, and is not quiet"))
            }
            _ => {
                self.seen.stop(now);
                Ok(())
            }
        }
    }

    /// All have decided, alike, and for some correct one's input.
    fn check_end(&self) -> Result<(), String> {
        let decisions: Vec<u32> = self
            .correct
            .iter()
            .map(|p| C::answers(&p.image)[0])
            .collect();
        let first = decisions[0];
        if decisions.contains(&2) {
            return Err(format!(
                "not all decided by round {}: {decisions:?}",
                self.round
            ));
        }
        if decisions.iter().any(|&d| d != first) {
            return Err(format!("no agreement: {decisions:?}"));
        }
        match self.correct.iter().any(|p| u32::from(p.input) == first) {
            true => Ok(()),
            false => Err(format!("no correct one had input {first}")),
        }
    }

    /// Whatever comes now, nothing changes any more.
    fn go_on(&mut self) -> Result<(), String> {
        let view = self.view();
        (0..self.correct.len()).try_for_each(|receiver| self.refuse_quiet(receiver, &view))
    }
}
