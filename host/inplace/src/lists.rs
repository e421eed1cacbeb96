//! What the lists received do to candidates and echoes.

use crate::frame::{self, rise};
use crate::image::{self, Draft, Image, List, State, MAX_NUMBERS};
use crate::received::Received;
use crate::tally::{each_number, reaches_third, reaches_two_thirds, Lists};
use crate::Refusal;

/// Room for numbers in a row. A large room costs time to make, and is rarely needed.
const FEW: usize = 4 * MAX_NUMBERS;
const MANY: usize = MAX_NUMBERS * MAX_NUMBERS;

/// Echoes the numbers that a third lists, and makes candidates of those that two thirds
/// list. Old candidates are left as they are.
pub fn count(image: &mut Image, state: &State, received: &Received) -> Result<(), Refusal> {
    let own = image::echoes(image);
    let listed = Listed::of(state, own, received);
    if own.len() == 0 && listed.others == 0 {
        return Ok(());
    }
    let mut news = News::of(received.heard, image::candidates(image));
    let counted = listed.count(own, &mut news);
    let kept = counted.and_then(|()| news.keep_below(u64::MAX));
    kept.ok_or(Refusal::TooManyListed)?;
    let News {
        candidates, echoes, ..
    } = news;
    image::put_candidates(image, &candidates);
    image::put_echoes(image, &echoes);
    Ok(())
}

/// The lists received that have a number.
struct Listed<'a, 'r> {
    received: &'r Received<'a>,
    /// How many are the own one, or count as it.
    equal: usize,
    /// The places of heard whose list is another one, one bit each; it may not rise.
    others: u64,
}

impl<'a, 'r> Listed<'a, 'r> {
    fn of(state: &'r State, own: List, received: &'r Received<'a>) -> Self {
        let mut bytes = [0; 4 * MAX_NUMBERS];
        frame::put_numbers(own, &mut bytes);
        let own = &bytes[..4 * own.len()];
        let mut listed = Listed {
            received,
            equal: 1 + received.silent(),
            others: 0,
        };
        let fronts = frame::fronts(state.round, state.kind);
        for (place, frame) in received.frames().enumerate() {
            match frame::list(frame, &fronts) {
                Some(list) if list == own => listed.equal += 1,
                Some(_) => listed.others |= 1 << place,
                None => (),
            }
        }
        listed
    }

    /// Counts the numbers of all lists; nothing if there is no room for them.
    fn count(&self, own: List, news: &mut News) -> Option<()> {
        let mut add = |number, count| news.add(number, count);
        if self.settle_all() {
            return own.numbers().try_for_each(|number| add(number, self.equal));
        }
        let others = self.others();
        let numbers: usize = others.iter().map(|list| list.len() / 4).sum();
        if numbers <= FEW {
            each_number::<FEW>(&others, own, self.equal, add)
        } else {
            each_number::<MANY>(&others, own, self.equal, add)
        }
    }

    /// Whether the other lists change nothing, whatever their numbers: none of theirs can
    /// reach a third, and no own number a threshold that it has not reached already.
    fn settle_all(&self) -> bool {
        let heard = self.received.heard;
        let others = self.others.count_ones() as usize;
        let (least, most) = (self.equal, self.equal + others);
        !reaches_third(others, heard)
            && reaches_third(least, heard) == reaches_third(most, heard)
            && reaches_two_thirds(least, heard) == reaches_two_thirds(most, heard)
    }

    /// The other lists that rise.
    fn others(&self) -> Lists<'a> {
        let mut lists = [&[][..]; MAX_NUMBERS];
        let frames = self.received.frames().enumerate();
        for (place, frame) in frames.filter(|(place, _)| self.others >> place & 1 == 1) {
            let list = &frame[frame::HEADER..];
            if rise(list, frame::number) {
                lists[place] = list;
            }
        }
        lists
    }
}

/// The lists to be made, as far as the numbers have come.
struct News<'a> {
    heard: usize,
    /// The candidates so far, and how many of them are among the new ones already.
    old: List<'a>,
    kept: usize,
    candidates: Draft,
    echoes: Draft,
}

impl<'a> News<'a> {
    fn of(heard: usize, old: List<'a>) -> News<'a> {
        News {
            heard,
            old,
            kept: 0,
            candidates: Draft::empty(),
            echoes: Draft::empty(),
        }
    }

    /// Takes the count of a number over all before; nothing if there is no room.
    fn add(&mut self, number: u32, count: usize) -> Option<()> {
        if !reaches_third(count, self.heard) {
            return Some(());
        }
        self.keep_below(number.into())?;
        if self.old.get(self.kept) == Some(number) {
            return Some(());
        }
        if reaches_two_thirds(count, self.heard) {
            self.candidates.push(number)?;
        }
        self.echoes.push(number)
    }

    /// Keeps the old candidates below a number.
    fn keep_below(&mut self, number: u64) -> Option<()> {
        let is_below = |&old: &u32| u64::from(old) < number;
        while let Some(below) = self.old.get(self.kept).filter(is_below) {
            self.candidates.push(below)?;
            self.kept += 1;
        }
        Some(())
    }
}
