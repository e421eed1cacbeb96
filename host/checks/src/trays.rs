//! Trays for a state: counts at the thresholds, lists at their limits, repeated
//! senders, void frames; and damage to the layout.

use crate::fields::Fields;
use crate::packing::{
    frame, has_list, kind_of, pack, packed_len, third, two_thirds, Entry, INIT, MAX_ENTRIES,
    MAX_TRAY, NONE, ROSTER, VALUE,
};
use crate::random::Random;
use crate::states::Sorted;
use crate::voids::damaged;

/// A tray for a state, mostly one that is accepted or refused late.
pub fn tray(random: &mut Random, pool: &[u32], state: &Fields) -> Vec<u8> {
    let senders = senders(random, pool, state);
    let mut entries = frames(random, pool, state, &senders);
    damage_some(random, &mut entries, state.round);
    if random.percent(30) {
        repeat_some(random, &mut entries, state.round);
    }
    if random.percent(40) {
        random.shuffle(&mut entries);
    }
    if random.percent(3) && !entries.is_empty() {
        let at = random.below(entries.len());
        entries[at].sender = random.pick(&[0, state.number]);
    }
    match random.below(100) {
        0 | 1 => fill_entries(random, &mut entries),
        2 | 3 => fill_bytes(random, &mut entries),
        _ => (),
    }
    let mut tray = pack(tray_round(random, state.round), &entries);
    if random.percent(8) {
        damage(random, &mut tray);
    }
    tray
}

fn tray_round(random: &mut Random, round: u32) -> u32 {
    match random.below(60) {
        0 => round + 1,
        1 => round - 1,
        2 => random.pick(&[0, 195, 196, round ^ 1 << 8, u32::MAX]),
        _ => round,
    }
}

/// Who has an entry: others heard, often not all of them, so that the rest are silent;
/// sometimes new ones, sometimes so many that 64 or 65 would be heard.
fn senders(random: &mut Random, pool: &[u32], state: &Fields) -> Vec<u32> {
    let known: Vec<u32> = without(&state.heard, &[state.number]);
    let count = match random.below(10) {
        0 => 0,
        1 => known.len() / 3 + random.below(2),
        2 | 3 => random.below(known.len() + 1),
        4 | 5 => known.len().saturating_sub(random.below(3)),
        _ => known.len(),
    };
    let room = 64 - state.heard.len();
    let new = match random.below(20) {
        0..=3 => random.within(1, 3),
        4 if random.percent(50) => room + random.below(2),
        _ => 0,
    };
    let unheard = without(pool, &state.heard);
    let mut senders = random.some(&known, count);
    senders.extend(random.some(&unheard, new));
    senders.sort_unstable();
    senders
}

/// The numbers that are not in the other list; both rise.
fn without(numbers: &[u32], others: &[u32]) -> Vec<u32> {
    let stays = |n: &&u32| others.binary_search(n).is_err();
    numbers.iter().filter(stays).copied().collect()
}

/// One frame for each sender, none of them void.
fn frames(random: &mut Random, pool: &[u32], state: &Fields, senders: &[u32]) -> Vec<Entry> {
    let (round, kind) = (state.round, kind_of(state.round));
    let after = without(senders, &state.heard).len() + state.heard.len();
    let bits = bits(random, state, senders.len(), after);
    let lists = if has_list(kind) {
        lists(random, pool, state, senders.len(), after)
    } else {
        vec![Vec::new(); senders.len()]
    };
    let entry = |((&sender, bit), list): ((&u32, u8), &Vec<u32>)| Entry {
        sender,
        bytes: frame(round, bit, list),
    };
    senders.iter().zip(bits).zip(&lists).map(entry).collect()
}

/// How often what one sent oneself counts: for oneself, and for each who is silent.
fn own_times(senders: usize, heard: usize) -> usize {
    heard - senders
}

/// The bits said: both bits' counts come near a third or two thirds.
fn bits(random: &mut Random, state: &Fields, senders: usize, heard: usize) -> Vec<u8> {
    let kind = kind_of(state.round);
    if kind == INIT || kind == ROSTER {
        return vec![NONE; senders];
    }
    let first = random.bit();
    let mut bits = Vec::with_capacity(senders);
    for bit in [first, 1 - first] {
        let own = match state.said == bit {
            true => own_times(senders, heard),
            false => 0,
        };
        let count = near_threshold(random, heard).saturating_sub(own);
        bits.resize((bits.len() + count).min(senders), bit);
    }
    // Who is left over says none; a value frame with that bit is void.
    let rest = if kind == VALUE {
        random.pick(&[NONE, 1 - first])
    } else {
        NONE
    };
    bits.resize(senders, rest);
    random.shuffle(&mut bits);
    bits
}

/// A count at, just under or just over a third or two thirds, or any.
fn near_threshold(random: &mut Random, heard: usize) -> usize {
    match random.below(8) {
        0 => third(heard) - 1,
        1 | 2 => third(heard),
        3 => two_thirds(heard) - 1,
        4 | 5 => two_thirds(heard),
        6 => third(heard) + 1,
        _ => random.below(heard + 1),
    }
}

/// The lists sent by the others; the own list, the echoes, stands already.
fn lists(
    random: &mut Random,
    pool: &[u32],
    state: &Fields,
    senders: usize,
    heard: usize,
) -> Vec<Vec<u32>> {
    match random.below(10) {
        0 => {
            let size = random.below(65);
            (0..senders).map(|_| random.some(pool, size)).collect()
        }
        1 => {
            let size = random.pick(&[1, 8, 64]);
            vec![random.some(pool, size); senders]
        }
        2 => vec![state.echoes.clone(); senders],
        _ => {
            let mut plan = planned(random, pool, state, heard);
            random.shuffle(&mut plan);
            spread(random, &plan, state, senders, heard)
        }
    }
}

/// Numbers with the counts that they shall have: so many reach a third or two
/// thirds that few, 64 or 65 echoes or candidates result; others fall just short.
fn planned(random: &mut Random, pool: &[u32], state: &Fields, heard: usize) -> Vec<(u32, usize)> {
    let free = without(pool, &state.candidates);
    let to_limit = random.within(63, 66);
    let (reaching, count) = match random.below(4) {
        0 => (to_limit, third(heard)),
        1 => (to_limit - state.candidates.len().min(63), two_thirds(heard)),
        _ => (random.within(1, 8), near_threshold(random, heard)),
    };
    let short = random.pick(&[0, 1, 5]);
    let mut numbers = random.some(&free, reaching + short);
    random.shuffle(&mut numbers);
    let counts = |(place, number)| match place < reaching {
        true => (number, count),
        false => (number, count.saturating_sub(1)),
    };
    let mut plan: Vec<(u32, usize)> = numbers.into_iter().enumerate().map(counts).collect();
    if random.percent(40) {
        let old = random.some(&state.candidates, 3);
        plan.extend(old.into_iter().map(|number| (number, two_thirds(heard))));
    }
    plan
}

/// Puts each number into as many lists as planned, the own list counted in, as often as
/// it counts.
fn spread(
    random: &mut Random,
    plan: &[(u32, usize)],
    state: &Fields,
    senders: usize,
    heard: usize,
) -> Vec<Vec<u32>> {
    let mut lists = vec![Vec::with_capacity(64); senders];
    for &(number, count) in plan {
        let own = match state.echoes.binary_search(&number) {
            Ok(_) => own_times(senders, heard),
            Err(_) => 0,
        };
        let mut missing = count.saturating_sub(own);
        let first = random.below(senders.max(1));
        for at in (first..senders).chain(0..first) {
            if missing > 0 && lists[at].len() < 64 {
                lists[at].push(number);
                missing -= 1;
            }
        }
    }
    let sorted = |list: Vec<u32>| list.into_iter().collect::<Sorted>().0;
    lists.into_iter().map(sorted).collect()
}

/// Makes none, few or many of the frames void.
fn damage_some(random: &mut Random, entries: &mut [Entry], round: u32) {
    let chance = random.pick(&[0, 0, 0, 0, 5, 5, 20, 60]);
    for entry in entries {
        if random.percent(chance) {
            entry.bytes = damaged(random, &entry.bytes, round);
        }
    }
}

/// Second entries under numbers that have one, in front of the first or behind it: a
/// copy, a copy with one byte changed, a void frame, nothing, or another's frame.
fn repeat_some(random: &mut Random, entries: &mut Vec<Entry>, round: u32) {
    if entries.is_empty() {
        return;
    }
    for _ in 0..random.within(1, 4) {
        let at = random.below(entries.len());
        let mut again = entries[at].clone();
        match random.below(6) {
            0 => (),
            1 => change_byte(random, &mut again.bytes),
            2 => again.bytes = damaged_again(random, &again.bytes, round),
            3 => {
                entries[at].bytes = damaged_again(random, &again.bytes, round);
                again.bytes = damaged_again(random, &again.bytes, round);
            }
            4 => again.bytes.clear(),
            _ => again.bytes = entries[random.below(entries.len())].bytes.clone(),
        }
        let place = random.below(entries.len() + 1);
        entries.insert(place, again);
    }
}

fn change_byte(random: &mut Random, bytes: &mut [u8]) {
    if !bytes.is_empty() {
        bytes[random.below(bytes.len())] ^= 1 << random.below(8);
    }
}

/// A void frame, also of one that is void already.
fn damaged_again(random: &mut Random, bytes: &[u8], round: u32) -> Vec<u8> {
    match bytes.len() >= 8 {
        true => damaged(random, bytes, round),
        false => random.bytes(7),
    }
}

/// Repeats entries until there are about as many as a tray may have.
fn fill_entries(random: &mut Random, entries: &mut Vec<Entry>) {
    let count = random.pick(&[MAX_ENTRIES - 1, MAX_ENTRIES, MAX_ENTRIES, MAX_ENTRIES + 1]);
    if !entries.is_empty() {
        while entries.len() < count {
            let again = entries[random.below(entries.len())].clone();
            entries.push(again);
        }
    }
}

/// Makes one frame so long that the tray has about as many bytes as it may.
fn fill_bytes(random: &mut Random, entries: &mut [Entry]) {
    let length = random.pick(&[MAX_TRAY - 1, MAX_TRAY, MAX_TRAY, MAX_TRAY + 1, MAX_TRAY + 2]);
    let missing = length.saturating_sub(packed_len(entries));
    if !entries.is_empty() {
        let at = random.below(entries.len());
        let longer = entries[at].bytes.len() + missing;
        entries[at].bytes.resize(longer, 0);
    }
}

/// Damages the layout: one field of the header or the directory, a byte more or
/// less, a short tray, or random bytes.
pub fn damage(random: &mut Random, tray: &mut Vec<u8>) {
    let count = usize::from(u16::from_be_bytes([tray[4], tray[5]]));
    match random.below(10) {
        0 => add(tray, 4, random.pick(&[1, u16::MAX])),
        1 => tray[random.within(6, 7)] = random.byte().max(1),
        2 => tray.push(random.byte()),
        3 => tray.truncate(tray.len() - 1),
        4 => tray.truncate(random.within(0, 8)),
        5 => tray[4..6].copy_from_slice(&random.pick(&[257u16, 8192, u16::MAX]).to_be_bytes()),
        6 => {
            let length = random.pick(&[0, 7, 8, 9, 24, 264, 1000]);
            *tray = random.bytes(length);
        }
        _ if count == 0 || tray.len() < 8 + 8 * count => tray.clear(),
        7 => add(
            tray,
            12 + 8 * random.below(count),
            random.pick(&[1, u16::MAX, 8, 256]),
        ),
        8 => add(
            tray,
            14 + 8 * random.below(count),
            random.pick(&[1, u16::MAX, 8, 256]),
        ),
        _ => {
            let entry = 8 + 8 * random.below(count);
            let other = 8 + 8 * random.below(count);
            for i in 0..8 {
                tray.swap(entry + i, other + i);
            }
        }
    }
}

/// Adds to a field of two bytes, wrapping.
fn add(tray: &mut [u8], at: usize, more: u16) {
    let field = u16::from_be_bytes([tray[at], tray[at + 1]]).wrapping_add(more);
    tray[at..at + 2].copy_from_slice(&field.to_be_bytes());
}
