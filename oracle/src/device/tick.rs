//! The tick, by which the send time-out is counted.

use super::descriptor::Descriptor;
use super::registers::{Name, TX_TO};
use super::Bench;
use crate::numbers::{DONE, LENT_LENGTH};

impl Bench {
    /// "A tick (refused only by 11) adds one to a count if sending runs and its descriptor is in the
    /// window and granted, else clears it." It looks at no buffer and stops nothing.
    pub fn tick(&mut self, memory: &[u8]) -> u32 {
        if !self.window.is_lent(memory) {
            return LENT_LENGTH;
        }
        // Apart from the counter's own width: a count above every value is above it one more, too.
        let counted = match self.waits(memory) {
            true => u64::from(self.ticks) + 1,
            false => 0,
        };
        let value = self.registers.get(Name::SendTimeOut);
        self.ticks = if value == 0 {
            // "Value 0 keeps it at 0."
            0
        } else if counted > u64::from(value) {
            // "A tick that counts above the value sets TX_TO and starts it again at 0"
            self.registers.raise(TX_TO);
            0
        } else {
            counted as u32
        };
        DONE
    }

    /// Whether a frame waits to be sent.
    fn waits(&self, memory: &[u8]) -> bool {
        let place = self.sender.place;
        let descriptor = Descriptor::read(&self.window, memory, place);
        self.sender.running && descriptor.is_some_and(|descriptor| descriptor.granted())
    }
}
