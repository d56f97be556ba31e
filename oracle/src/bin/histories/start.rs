//! Where a history starts.

use oracle::device::{Bench, Counters, POLLING, VALID};
use oracle::random::Random;
use oracle::scripts;
use oracle::side::Side;

/// What a start can lack for want of polling.
pub const NOT_SOUND: &str = "the ring is not sound";
pub const NO_POLLING: &str = "receiving does not poll at the first descriptor";

#[derive(Clone, PartialEq, Eq)]
pub struct Start {
    pub bench: Bench,
    pub memory: Vec<u8>,
    /// The ring's descriptors in order.
    pub ring: Vec<u32>,
}

impl Start {
    /// A random start; an error if it is not one from which histories are claimed.
    pub fn new(random: &mut Random) -> Result<Start, String> {
        let count = match random.below(3) {
            0 => random.between(1, 32),
            _ => random.between(1, 4),
        };
        let (mut bench, memory, ring) = scripts::started_ring(random, count);
        // A time-out and counters of any value: a history starts anywhere, not at reset alone. Sending
        // has been stopped since the last tick, so that there may be a count.
        bench.write(0x48, random.pick(&[0, 1, 5, 0xFFFF]));
        if bench.read(0x48).1 > 0 {
            bench.ticks = random.below(2) as u32;
        }
        let mut counter = || random.below(1_000) as u32;
        bench.counters = Counters {
            delivered: counter(),
            lost: counter(),
            sent: counter(),
        };
        let start = Start {
            bench,
            memory,
            ring,
        };
        match start.fault() {
            Some(fault) => Err(format!("no start of a history: {fault}")),
            None => Ok(start),
        }
    }

    /// The same start, but without polling for the starting place.
    pub fn without_polling(&self) -> Start {
        let mut start = self.clone();
        let (register, first) = (Side::Receiving.next(), start.ring[0]);
        for (offset, value) in [
            (Side::Receiving.start(), 0),
            (register, first),
            (Side::Receiving.start(), 5),
        ] {
            assert_eq!(start.bench.write(offset, value), 0);
        }
        start
    }

    /// The same start, but without the polling bit in one descriptor's next word.
    pub fn without_polling_in(&self, chosen: usize) -> Start {
        let mut start = self.clone();
        let descriptor = start.ring[chosen] - start.bench.window.base as u32;
        start.memory[descriptor as usize + 8] &= !(POLLING as u8);
        start
    }

    /// What it lacks to be a start of the claims.
    pub fn fault(&self) -> Option<&str> {
        let first = self.ring[0];
        let count = self.ring.len() as u32;
        if !self.bench.ring(&self.memory, count, first) {
            return Some(NOT_SOUND);
        }
        if !self.bench.receiver.running || self.bench.receiver.place != first {
            return Some("receiving does not stand at the first descriptor");
        }
        // "Demand 3 is read with polling enabled for the starting place."
        if !self.bench.receiver.polling {
            return Some(NO_POLLING);
        }
        if self.bench.sender.running {
            return Some("sending runs");
        }
        let granted = |address: &u32| self.word(*address, 12) & VALID != 0;
        if self.ring.iter().any(granted) {
            return Some("a descriptor is granted");
        }
        None
    }

    /// A word of the window.
    pub fn word(&self, address: u32, offset: usize) -> u32 {
        let place = (address - self.bench.window.base as u32) as usize + offset;
        let bytes = &self.memory[place..place + 4];
        u32::from_le_bytes([bytes[0], bytes[1], bytes[2], bytes[3]])
    }
}
