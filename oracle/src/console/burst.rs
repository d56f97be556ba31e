//! A burst's line: `burst ROOM BYTES START LENGTH START LENGTH ..`.

use super::parse::decimal;
use crate::device::{Bench, Pair};
use crate::hex;

/// The longest answer list and the most pairs: two more than a bench takes.
const ROOM_MOST: u32 = 66;
const PAIRS_MOST: usize = 66;
/// A start and a length have no limit but that of eight digits.
const ANY: u32 = u32::MAX;

/// What an answer list holds before the call; it is no answer, so that a place left out shows.
const BEFORE: u32 = 99;

pub struct Burst {
    room: usize,
    store: Vec<u8>,
    pairs: Vec<Pair>,
}

impl Burst {
    /// The burst that the words behind the command name.
    pub fn parse(words: &[&[u8]]) -> Option<Burst> {
        let [room, store, pairs @ ..] = words else {
            return None;
        };
        if pairs.len() > 2 * PAIRS_MOST {
            return None;
        }
        Some(Burst {
            room: decimal(room, ROOM_MOST)? as usize,
            store: hex::parse(store)?,
            pairs: pairs.chunks(2).map(pair).collect::<Option<_>>()?,
        })
    }

    /// The bytes of each pair's frame, nothing for a pair outside the store.
    pub fn frames(&self) -> impl Iterator<Item = Option<&[u8]>> {
        self.pairs.iter().map(|pair| pair.of(&self.store))
    }

    /// Makes the call; gives the line written for it.
    pub fn make(&self, bench: &mut Bench, lent: &mut [u8]) -> String {
        let mut answers = vec![BEFORE; self.room];
        let number = bench.burst(lent, &self.store, &self.pairs, &mut answers);
        let numbers = [number].into_iter().chain(answers);
        let words: String = numbers.map(|number| format!(" {number}")).collect();
        format!("burst{words}")
    }
}

/// One pair; a start without its length is none.
fn pair(words: &[&[u8]]) -> Option<Pair> {
    let [start, length] = words else {
        return None;
    };
    Some(Pair {
        start: decimal(start, ANY)?.into(),
        length: decimal(length, ANY)?.into(),
    })
}
