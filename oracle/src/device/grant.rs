//! Granting a receive descriptor.

use super::descriptor::{Descriptor, VALID};
use super::Bench;
use crate::numbers::{ALREADY_GRANTED, DONE, LENT_LENGTH, NO_DESCRIPTOR_OR_FRAME};

impl Bench {
    /// Gives the descriptor to the DMA. The device itself does not change.
    pub fn grant(&self, memory: &mut [u8], address: u32) -> u32 {
        if !self.window.is_lent(memory) {
            return LENT_LENGTH;
        }
        let descriptor = match Descriptor::read(&self.window, memory, address) {
            Some(descriptor) if address.is_multiple_of(4) => descriptor,
            _ => return NO_DESCRIPTOR_OR_FRAME,
        };
        if descriptor.granted() {
            return ALREADY_GRANTED;
        }
        // "Grants still write zeros": nothing of an earlier delivery is left beside VALID.
        Descriptor::write_status(&self.window, memory, address, VALID);
        DONE
    }
}
