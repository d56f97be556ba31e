//! A frame in.

use super::descriptor::Descriptor;
use super::engine::RECEIVE;
use super::registers::PACKET_LOST;
use super::Bench;
use crate::numbers::{CHAIN_FAULT, DONE, LENT_LENGTH, NOT_RUNNING};
use crate::reason::Reason;
use crate::verdict;

impl Bench {
    /// A frame from the wire, check sequence included.
    pub fn receive(&mut self, memory: &mut [u8], frame: &[u8]) -> u32 {
        let number = self.take_in(memory, frame);
        self.counters.received(number);
        number
    }

    fn take_in(&mut self, memory: &mut [u8], frame: &[u8]) -> u32 {
        if !self.window.is_lent(memory) {
            return LENT_LENGTH;
        }
        if !self.receiver.running {
            return NOT_RUNNING;
        }
        let reason = match verdict::passing(frame, &self.filter()) {
            Ok(reason) => reason,
            Err(turned_away) => return turned_away,
        };
        let place = self.receiver.place;
        let Some(descriptor) = Descriptor::read(&self.window, memory, place) else {
            self.receiver.running = false;
            return CHAIN_FAULT;
        };
        if !descriptor.granted() {
            self.registers.raise(PACKET_LOST);
            return self.receiver.not_granted();
        }
        let length = frame.len() as u64;
        let buffer = descriptor.buffer(&self.window, place, length);
        let Some(buffer) = buffer.filter(|_| descriptor.count() >= length) else {
            self.receiver.running = false;
            return CHAIN_FAULT;
        };
        memory[buffer].copy_from_slice(frame);
        Descriptor::write_status(&self.window, memory, place, status(frame, reason));
        let raised = self.receiver.finish(&RECEIVE, &descriptor);
        self.registers.raise(raised);
        DONE
    }
}

/// The packet status word of a delivery: "frame length, VALID returned, other bits 0", of which "the
/// status word's 'other bits 0' in document 01 is amended so", that the reason has its bit. Whatever
/// stood in the word before is gone.
fn status(frame: &[u8], reason: Reason) -> u32 {
    frame.len() as u32 | reason.status_bits()
}
