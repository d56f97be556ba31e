//! A burst of frames in one call.

use super::Bench;
use crate::numbers::{BURST_OR_PAIR, DONE};

/// "A lent list of start and length pairs, at most 64."
const PAIRS_MOST: usize = 64;

/// Where one frame of a burst lies in its store.
#[derive(Clone, Copy, Debug, PartialEq, Eq)]
pub struct Pair {
    pub start: u64,
    pub length: u64,
}

impl Pair {
    /// The bytes meant, or nothing for "a pair whose start plus length passes the store's end".
    /// A sum that needs more than 64 bits passes the end of every store.
    pub fn of(self, store: &[u8]) -> Option<&[u8]> {
        let end = self.start.checked_add(self.length)?;
        if end > store.len() as u64 {
            return None;
        }
        Some(&store[self.start as usize..end as usize])
    }
}

impl Bench {
    /// "Takes one lent store of bytes and a lent list of start and length pairs, at most 64, and
    /// receives them in order. Answers go into a lent list of numbers."
    pub fn burst(
        &mut self,
        memory: &mut [u8],
        store: &[u8],
        pairs: &[Pair],
        answers: &mut [u32],
    ) -> u32 {
        // "More than 64 pairs, or an answer list of another length than the pair list, refuses the
        // whole call with 16, changing nothing."
        if pairs.len() > PAIRS_MOST || answers.len() != pairs.len() {
            return BURST_OR_PAIR;
        }
        for (pair, answer) in pairs.iter().zip(answers) {
            // "State, window and answers equal those of single receives"; a pair outside "gets a
            // new number 16 in its own place and nothing else".
            *answer = match pair.of(store) {
                Some(frame) => self.receive(memory, frame),
                None => BURST_OR_PAIR,
            };
        }
        DONE
    }
}
