//! Pairs for a store: its frames in order, and pairs at and past its end among them.

use super::store::Store;
use crate::device::Pair;
use crate::random::Random;

/// The largest start or length that a line can name.
const NUMBER_MOST: u64 = 99_999_999;

pub fn pairs(random: &mut Random, store: &Store, count: usize) -> Vec<Pair> {
    // Half of the bursts are frames only; they come again where the store has fewer.
    let frames_only = random.once_in(2);
    (0..count)
        .map(|place| match frames_only || !random.once_in(3) {
            true => frame(store, place),
            false => other(random, store),
        })
        .collect()
}

/// The store's frame of this number, or all its bytes where it has no frames.
fn frame(store: &Store, place: usize) -> Pair {
    match store.frames.len() {
        0 => Pair {
            start: 0,
            length: store.bytes.len() as u64,
        },
        frames => store.frames[place % frames],
    }
}

fn other(random: &mut Random, store: &Store) -> Pair {
    let end = store.bytes.len() as u64;
    let inside = random.below(store.bytes.len() + 1) as u64;
    let Pair { start, length } = frame(store, random.below(64));
    let (start, length) = match random.below(20) {
        // A frame again or before its turn, and frames shifted or cut by a byte.
        0 | 1 => (start, length),
        2 => (start + 1, length),
        3 => (start.saturating_sub(1), length),
        4 => (start, length + 1),
        5 => (start, length.saturating_sub(1)),
        // To the end and past it.
        6 => (inside, end - inside),
        7 => (inside, end - inside + 1),
        8 => (start, end - start),
        9 => (start, end - start + 1),
        10 => (0, end),
        11 => (0, end + 1),
        // No bytes, inside and outside.
        12 => (inside, 0),
        13 => (end, 0),
        14 => (end + 1, 0),
        // Far outside; right again if cut to 16 bits.
        15 => (start + 65_536, length),
        16 => (start, length + 65_536),
        17 => (NUMBER_MOST, random.pick(&[0, 1, 64, NUMBER_MOST])),
        18 => (inside, NUMBER_MOST),
        _ => (inside, random.between(0, 2 * store.bytes.len() + 2) as u64),
    };
    Pair { start, length }
}
