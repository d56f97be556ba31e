//! What a comparison is made on.

use crate::made;
use oracle::device::Counters;
use oracle::random::Random;

/// A bench with the counters that it starts from, and all that is lent.
#[derive(Clone, Debug)]
pub struct Case {
    pub base: u32,
    pub window: u32,
    pub counters: Counters,
    pub count: u32,
    /// The bytes of events, which may have no whole one at their end.
    pub events: Vec<u8>,
    pub allowance: u32,
    pub store: Vec<u8>,
    pub starts: Vec<u32>,
    pub lengths: Vec<u32>,
    pub lent: Lent,
    /// How long the list of the numbers found is, beside as many as there are.
    pub more_found: i64,
}

/// What is lent to be written.
#[derive(Clone, Debug, PartialEq, Eq)]
pub struct Lent {
    pub memory: Vec<u8>,
    pub output: Vec<u8>,
    pub answers: Vec<u32>,
    /// The burst's answer list.
    pub list: Vec<u32>,
}

impl Case {
    /// The random case of a seed.
    pub fn random(seed: u64) -> Case {
        made::case(&mut Random::new(seed))
    }

    /// How long the list of the numbers found is, of which there are so many.
    pub fn found(&self, numbers: usize) -> usize {
        (numbers as i64 + self.more_found).max(0) as usize
    }
}
