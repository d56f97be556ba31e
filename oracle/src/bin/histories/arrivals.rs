//! How a sequence of frames comes in: by single receives and by bursts.

use crate::burst::PAIRS_MOST;
use oracle::random::Random;

#[derive(Clone, Copy)]
pub enum Arrival {
    Single,
    /// So many frames of the sequence in one burst.
    Burst(usize),
}

/// Cuts a sequence of `length` frames into calls.
pub fn cut(length: usize, random: &mut Random) -> Vec<Arrival> {
    let mut arrivals = Vec::new();
    let mut left = length;
    // From no bursts at all to nothing else.
    let bursts = random.below(5);
    while left > 0 {
        let most = random.pick(&[6, PAIRS_MOST]).min(left);
        let arrival = match random.below(4) < bursts {
            true => Arrival::Burst(random.between(1, most)),
            false => Arrival::Single,
        };
        left -= arrival.frames();
        arrivals.push(arrival);
    }
    arrivals
}

impl Arrival {
    pub fn frames(self) -> usize {
        match self {
            Arrival::Single => 1,
            Arrival::Burst(frames) => frames,
        }
    }
}
