//! "A tick call for the send time-out."

mod clearing;
mod counting;
mod writing;

use super::{Trial, GRANTED, NEXT_ENABLE, POLLING, RESET_STATUS, TIME_OUT};

/// Bit 19.
const TX_TO: u32 = 0x0008_0000;

/// One granted descriptor at 80 that leads to itself; sending runs there, and the time-out has this
/// value.
fn waiting(value: u32) -> Trial {
    let mut trial = Trial::new(0x400);
    trial.descriptor(0x80, 60 | NEXT_ENABLE, 0x100, 0x80 | POLLING, GRANTED);
    trial.start_sending(0x80 | POLLING);
    assert_eq!(trial.bench.write(TIME_OUT, value), 0);
    trial
}

impl Trial {
    /// A tick that is not refused; gives the count behind it.
    fn tick(&mut self) -> u32 {
        assert_eq!(self.bench.tick(&self.memory), 0);
        self.bench.ticks
    }

    fn ticks(&mut self, count: usize) -> Vec<u32> {
        (0..count).map(|_| self.tick()).collect()
    }

    fn timed_out(&self) -> bool {
        self.status() & TX_TO != 0
    }
}
