//! The whole controller at the level of frames.

mod access;
mod burst;
mod counters;
mod descriptor;
mod engine;
mod grant;
mod reading;
mod receive;
pub mod registers;
mod ring;
mod send;
#[cfg(test)]
mod tests;
mod tick;
mod window;

pub use burst::Pair;
pub use counters::Counters;
pub use descriptor::{POLLING, SIZE as DESCRIPTOR_SIZE, VALID};
pub use engine::Engine;
pub use send::StepRun;
pub use window::Window;

use crate::numbers;
use registers::Registers;

/// A bench: registers, engines, counters and the window it was made for. Memory is lent at each call.
#[derive(Clone, Debug, PartialEq, Eq)]
pub struct Bench {
    pub window: Window,
    registers: Registers,
    pub receiver: Engine,
    pub sender: Engine,
    pub counters: Counters,
    /// How many ticks in a row have found a frame that waits to be sent.
    pub ticks: u32,
}

impl Bench {
    /// A bench in the reset state, and 0, or 1 with no window if the one asked is not allowed.
    pub fn new(base: u32, length: u64) -> (Bench, u32) {
        let allowed = Window::allowed(base.into(), length);
        let number = match allowed {
            Some(_) => numbers::DONE,
            None => numbers::WINDOW_NOT_ALLOWED,
        };
        let bench = Bench {
            window: allowed.unwrap_or(Window::NONE),
            registers: Registers::reset(),
            receiver: Engine::default(),
            sender: Engine::default(),
            // "The reset state has all four at 0."
            counters: Counters::default(),
            ticks: 0,
        };
        (bench, number)
    }
}
