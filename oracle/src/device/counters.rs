//! "Frames delivered, lost and sent": counters of the device's state that are no registers.

use crate::numbers::{DONE, NOT_GRANTED};

/// Each of them goes on "stopping at 4,294,967,295".
#[derive(Clone, Copy, Debug, Default, PartialEq, Eq)]
pub struct Counters {
    pub delivered: u32,
    pub lost: u32,
    pub sent: u32,
}

/// One more, unless the counter has come to its stop.
fn count(counter: &mut u32) {
    if *counter < u32::MAX {
        *counter += 1;
    }
}

impl Counters {
    /// A receive has been answered so: "number 8 on receiving now also changes the lost counter".
    pub fn received(&mut self, number: u32) {
        match number {
            DONE => count(&mut self.delivered),
            NOT_GRANTED => count(&mut self.lost),
            _ => {}
        }
    }

    /// A single send has been answered so. Its 8 is no loss.
    pub fn sent(&mut self, number: u32) {
        if number == DONE {
            count(&mut self.sent);
        }
    }
}
