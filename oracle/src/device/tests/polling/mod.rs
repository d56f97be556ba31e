//! "Polling is a choice": the flag beside each engine's place, and what number 8 does by it.

mod bursts;
mod number_8;
mod places;
mod step_runs;

use super::{frame, Trial, GRANTED, NEXT_ENABLE, OWN};
use crate::device::Engine;
use crate::side::Side;

/// Every pair of low bits.
const LOW_BITS: [u32; 4] = [0, 1, 2, 3];

/// Whether low bits enable polling: bit 0 does, bit 1 has no part in it.
fn polls(bits: u32) -> bool {
    matches!(bits, 1 | 3)
}

/// Two descriptors at 0 and 16 in a ring, fit for either engine: 64 bytes each at 0x100 and 0x140,
/// the next words with these low bits.
fn two(first_bits: u32, second_bits: u32, status: [u32; 2]) -> Trial {
    let mut trial = Trial::new(0x200);
    trial.descriptor(0, 64 | NEXT_ENABLE, 0x100, 16 | first_bits, status[0]);
    trial.descriptor(16, 64 | NEXT_ENABLE, 0x140, second_bits, status[1]);
    trial
}

/// An engine as it should be.
fn engine(running: bool, place: u32, polling: bool) -> Engine {
    Engine {
        running,
        place,
        polling,
    }
}

/// The engine that a test is not about.
fn other(side: Side) -> Side {
    match side {
        Side::Receiving => Side::Sending,
        Side::Sending => Side::Receiving,
    }
}

impl Trial {
    /// Starts an engine by this word of its next-descriptor register.
    fn start_by(&mut self, side: Side, word: u32) {
        assert_eq!(self.bench.write(side.next(), word), 0);
        assert_eq!(self.bench.write(side.start(), 5), 0);
    }

    /// A frame to the station, or a send: the number.
    fn call(&mut self, side: Side) -> u32 {
        match side {
            Side::Receiving => self.receive(&frame(OWN, 64)),
            Side::Sending => self.send().0,
        }
    }
}
