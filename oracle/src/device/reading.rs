//! Reading a delivered frame.

use super::descriptor::Descriptor;
use super::Bench;
use crate::numbers::{DONE, LENT_LENGTH, NO_DESCRIPTOR_OR_FRAME};
use crate::verdict;

/// The check sequence, which is not shown.
const CHECK_BYTES: usize = 4;

impl Bench {
    /// The number, and the part of the lent window with the frame at this descriptor.
    pub fn show<'memory>(&self, memory: &'memory [u8], address: u32) -> (u32, &'memory [u8]) {
        if !self.window.is_lent(memory) {
            return (LENT_LENGTH, &[]);
        }
        match self.delivered(memory, address) {
            Some(frame) => (DONE, frame),
            None => (NO_DESCRIPTOR_OR_FRAME, &[]),
        }
    }

    fn delivered<'memory>(&self, memory: &'memory [u8], address: u32) -> Option<&'memory [u8]> {
        let descriptor = Descriptor::read(&self.window, memory, address)?;
        let length = descriptor.frame_length();
        let shown =
            address.is_multiple_of(4) && !descriptor.granted() && verdict::length_allowed(length);
        if !shown {
            return None;
        }
        let places = self.window.places(descriptor.start()?, length as u64)?;
        Some(&memory[places.start..places.end - CHECK_BYTES])
    }
}
