//! Polling in scripts: the low bits of words that lead to places, and steps that show what they do.

mod few_grants;
mod steps;

pub use few_grants::{chains, on_both_engines, SIZE};
pub use steps::{change_next_word, go_on, is_8, start_again};

use super::layout::{Place, POLLING};
use super::writer::Writer;
use crate::hex;
use crate::side::Side;

/// Both low bits of such a word.
const LOW_BITS: u32 = 3;

impl Writer {
    /// Low bits for a word that leads to a place: polling or not, with the reserved bit or not.
    pub fn low_bits(&mut self) -> u32 {
        self.random.word() & LOW_BITS
    }

    /// A frame that passes, often with a look at its status word, or a single send; gives the
    /// oracle's answer.
    pub fn call(&mut self, side: Side) -> String {
        match side {
            Side::Receiving => {
                let length = self.random.between(64, 72);
                let frame = self.passing_frame(length);
                let place = self.console.bench.receiver.place;
                let answer = self.say(format!("frame {}", hex::write(&frame)));
                if self.random.once_in(2) {
                    self.peek_status(place);
                }
                answer
            }
            Side::Sending => self.say("send 1518"),
        }
    }

    /// Writes the engine's next-descriptor register.
    pub fn write_next(&mut self, side: Side, word: u32) {
        self.say(format!("write {:x} {word:x}", side.next()));
    }

    /// Writes the engine's start register.
    pub fn write_start(&mut self, side: Side, value: u32) {
        self.say(format!("write {:x} {value:x}", side.start()));
    }
}

/// Takes polling from some of a ring's next words: from one of them, from all, or from any.
pub fn mix(writer: &mut Writer, ring: &mut [Place]) {
    let chosen = writer.random.below(ring.len());
    let kind = writer.random.below(4);
    for (place, entry) in ring.iter_mut().enumerate() {
        let bits = writer.low_bits();
        entry.next = match kind {
            0 if place == chosen => entry.next & !POLLING,
            0 => entry.next,
            1 => entry.next & !POLLING,
            _ => entry.next & !LOW_BITS | bits,
        };
        writer.poke_word(entry.address.wrapping_add(8), entry.next);
    }
}
