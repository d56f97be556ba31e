//! Bursts that come to a descriptor that is not granted.

use super::super::{frame, OWN};
use super::{engine, polls, two, Side, GRANTED, LOW_BITS};
use crate::device::Pair;

#[test]
fn the_frames_behind_a_stop_are_answered_3() {
    for bits in LOW_BITS {
        let mut trial = two(bits, 0, [GRANTED, 0]);
        trial.start_by(Side::Receiving, !bits & 3);
        let pairs = [Pair {
            start: 0,
            length: 64,
        }; 4];
        let mut answers = [99; 4];
        let store = frame(OWN, 64);
        let memory = &mut trial.memory;
        let number = trial.bench.burst(memory, &store, &pairs, &mut answers);
        let wanted = match polls(bits) {
            true => [0, 8, 8, 8],
            false => [0, 8, 3, 3],
        };
        assert_eq!((number, answers), (0, wanted));
        let left = engine(polls(bits), 16, polls(bits));
        assert_eq!(trial.bench.receiver, left);
    }
}
