//! Bursts, which must equal single receives.

mod frames;
mod limits;

use super::{Trial, GRANTED, NEXT_ENABLE, POLLING};
use crate::device::Pair;

/// What an answer list holds before a call.
const BEFORE: u32 = 99;

/// A chain of `count` granted descriptors from 0 on with polling, buffers of 80 bytes from 0x1000
/// on. The last one has no next.
fn chain(count: u32) -> Trial {
    let mut trial = Trial::new(0x4000);
    for place in 0..count {
        let next_enable = if place + 1 < count { NEXT_ENABLE } else { 0 };
        let address = 16 * place as usize;
        let start = 0x1000 + 80 * place;
        let next = (16 * (place + 1)) | POLLING;
        trial.descriptor(address, 80 | next_enable, start, next, GRANTED);
    }
    trial.start_receiving(POLLING);
    trial
}

fn pair(start: u64, length: u64) -> Pair {
    Pair { start, length }
}

impl Trial {
    /// A burst into an answer list of `room` numbers: the call's number and the list.
    fn burst_into(&mut self, room: usize, store: &[u8], pairs: &[Pair]) -> (u32, Vec<u32>) {
        let mut answers = vec![BEFORE; room];
        let memory = &mut self.memory;
        let number = self.bench.burst(memory, store, pairs, &mut answers);
        (number, answers)
    }

    /// The answers of a burst that is not refused.
    fn burst(&mut self, store: &[u8], pairs: &[Pair]) -> Vec<u32> {
        let (number, answers) = self.burst_into(pairs.len(), store, pairs);
        assert_eq!(number, 0);
        answers
    }

    fn refuses(&mut self, room: usize, store: &[u8], pairs: &[Pair]) {
        let before = self.clone();
        assert_eq!(
            self.burst_into(room, store, pairs),
            (16, vec![BEFORE; room])
        );
        self.is(&before);
    }

    fn is(&self, other: &Trial) {
        assert_eq!(self.bench, other.bench);
        assert_eq!(self.memory, other.memory);
    }
}
