//! Good words made bad.
use seeded::Rng;
use tapewoad::calls::{ANSWER_WORDS, BUS_WORDS, LIST_WORDS};

use crate::lent::{self, Slices};

/// Values about the edges of fields.
const EDGES: [u64; 24] = [
    0,
    1,
    2,
    3,
    4,
    5,
    6,
    7,
    9,
    11,
    0x60,
    0x80,
    0x81,
    255,
    256,
    1_023,
    1_024,
    65_535,
    65_536,
    65_537,
    u32::MAX as u64,
    1 << 32,
    (1 << 32) + 1,
    u64::MAX,
];

pub fn word(rng: &mut Rng) -> u64 {
    match rng.below(4) {
        0 => rng.next_u64(),
        1 => rng.below(64) as u64,
        _ => rng.pick(&EDGES),
    }
}

pub fn words(rng: &mut Rng, count: usize) -> Vec<u64> {
    (0..count).map(|_| word(rng)).collect()
}

/// Another word for one, near it or far from it.
fn flip(rng: &mut Rng, old: u64) -> u64 {
    match rng.below(5) {
        0 => old ^ 1 << rng.below(64),
        1 => old.wrapping_add(1),
        2 => old.wrapping_sub(1),
        _ => word(rng),
    }
}

/// Flips a word, swaps two, or takes some away or adds some: at most `most` stay.
pub fn list(rng: &mut Rng, words: &mut Vec<u64>, most: usize) {
    let length = words.len();
    match rng.below(8) {
        0 => words.truncate(rng.below(length + 1)),
        1 => {
            let count = 1 + rng.below(4);
            words.extend((0..count).map(|_| word(rng)));
        }
        2 => words.insert(rng.below(length + 1), word(rng)),
        3 if length > 0 => drop(words.remove(rng.below(length))),
        4 if length > 1 => words.swap(rng.below(length), rng.below(length)),
        _ if length > 0 => flip_one(rng, words),
        _ => {}
    }
    words.truncate(most);
}

pub fn flip_one(rng: &mut Rng, words: &mut [u64]) {
    if !words.is_empty() {
        let at = rng.below(words.len());
        words[at] = flip(rng, words[at]);
    }
}

/// Puts a small value into one of the first words after the call's number.
pub fn odd(rng: &mut Rng, words: &mut [u64]) {
    const SMALL: [u64; 16] = [
        0, 1, 2, 3, 4, 5, 6, 9, 11, 0x10, 0x1f, 0x60, 0x80, 0x81, 0xe0, 255,
    ];
    let last = words.len().min(15);
    if last > 1 {
        words[1 + rng.below(last - 1)] = rng.pick(&SMALL);
    }
}

/// Another controller state, two words swapped, or one flipped.
pub fn session(rng: &mut Rng, words: &mut [u64]) {
    match rng.below(5) {
        0 => words[6] = rng.below(5) as u64,
        1 => words.swap(rng.below(words.len()), rng.below(words.len())),
        _ => flip_one(rng, words),
    }
}

/// One of the eight slices.
#[derive(Debug, Clone, Copy, PartialEq, Eq)]
pub enum Slice {
    Session,
    Bus,
    Rows,
    Area,
    Call,
    Bytes,
    Out,
    Lists,
}

/// Each slice, the most elements that it is lent with, and from which length on
/// none is left out; below it every 32nd is taken.
const SLICES: [(Slice, usize, usize); 8] = [
    (Slice::Out, lent::MOST_OUT, 0),
    (Slice::Lists, lent::MOST_LISTS, LIST_WORDS - 16),
    (Slice::Session, lent::MOST_SESSION, 0),
    (Slice::Call, 64, 0),
    (Slice::Bytes, 256, 0),
    (Slice::Area, lent::MOST_AREA, lent::MOST_AREA),
    (Slice::Bus, lent::MOST_BUS, BUS_WORDS - 16),
    (Slice::Rows, lent::MOST_ROWS, 0),
];

/// These lengths of every slice, the empty one first.
pub fn sizes() -> Vec<(Slice, usize)> {
    let of = |(slice, most, all): (Slice, usize, usize)| {
        let lengths = (0..all).step_by(32).chain(all..=most);
        lengths.map(move |length| (slice, length))
    };
    SLICES.into_iter().flat_map(of).collect()
}

/// Gives a slice this length.
pub fn resize(slices: &mut Slices, slice: Slice, length: usize) {
    match slice {
        Slice::Session => slices.session.resize(length, 0),
        Slice::Bus => slices.bus.resize(length, 0),
        Slice::Rows => slices.rows.resize(length, 0),
        Slice::Area => slices.area.resize(length, 0),
        Slice::Call => slices.call.resize(length, 0),
        Slice::Bytes => slices.bytes.resize(length, 0),
        Slice::Out => slices.out.resize(length, 0),
        Slice::Lists => slices.lists.resize(length, 0),
    }
}

/// Takes an element away from a slice or adds one.
pub fn off_by_one(rng: &mut Rng, slices: &mut Slices) {
    let (slice, most, _) = rng.pick(&SLICES);
    let right = match slice {
        Slice::Session => slices.session.len(),
        Slice::Bus => slices.bus.len(),
        Slice::Rows => slices.rows.len(),
        Slice::Area => slices.area.len(),
        Slice::Call => slices.call.len(),
        Slice::Bytes => slices.bytes.len(),
        Slice::Out => ANSWER_WORDS,
        Slice::Lists => LIST_WORDS,
    };
    let length = match rng.chance(50) {
        true => right + 1,
        false => right.saturating_sub(1),
    };
    resize(slices, slice, length.min(most));
}

/// Flips words of the rows, the bus or bytes of the area: no call leaves such.
pub fn contents(rng: &mut Rng, slices: &mut Slices) {
    for _ in 0..1 + rng.below(8) {
        match rng.below(4) {
            0 | 1 => flip_one(rng, &mut slices.rows),
            2 => flip_one(rng, &mut slices.bus),
            _ if !slices.area.is_empty() => {
                let at = rng.below(slices.area.len());
                slices.area[at] = rng.next_u64() as u8;
            }
            _ => {}
        }
    }
}
