//! The two DMA engines: whether each runs, its place in the chain, and whether it polls there.

use super::descriptor::{aligned, Descriptor, POLLING};
use super::registers::{self, Name};
use crate::numbers::NOT_GRANTED;

#[derive(Clone, Copy, Debug, Default, PartialEq, Eq)]
pub struct Engine {
    pub running: bool,
    pub place: u32,
    /// The polling bit that holds for the place.
    pub polling: bool,
}

/// What tells the directions apart.
pub struct Direction {
    pub start: Name,
    pub next: Name,
    current_done: u32,
    done: u32,
}

pub const RECEIVE: Direction = Direction {
    start: Name::ReceiveStart,
    next: Name::ReceiveNext,
    current_done: registers::RX_CURR_DONE,
    done: registers::RX_DONE,
};

pub const SEND: Direction = Direction {
    start: Name::SendStart,
    next: Name::SendNext,
    current_done: registers::TX_CURR_DONE,
    done: registers::TX_DONE,
};

impl Engine {
    /// A start write. `next` is what the next-descriptor register holds.
    pub fn start_write(&mut self, value: u32, next: u32) {
        if value & registers::DMA_ENABLE == 0 {
            self.running = false;
        } else if value & registers::START_FETCH != 0 && !self.running {
            self.running = true;
            self.go_to(next);
        }
    }

    /// "The bit of the word, of register or descriptor, that led to a place, as read then, holds for
    /// it": both are taken together, and what becomes of the word later does not matter.
    fn go_to(&mut self, word: u32) {
        self.place = aligned(word);
        self.polling = word & POLLING != 0;
    }

    /// Number 8. "Without [polling], number 8, for sending too, also stops that engine; with it, it
    /// looks again." Place and polling stay either way.
    pub fn not_granted(&mut self) -> u32 {
        if !self.polling {
            self.running = false;
        }
        NOT_GRANTED
    }

    /// Goes on after a finished descriptor; gives the status bits to raise.
    pub fn finish(&mut self, direction: &Direction, descriptor: &Descriptor) -> u32 {
        if descriptor.next_enable() {
            self.go_to(descriptor.next_word());
            direction.current_done
        } else {
            self.running = false;
            direction.current_done | direction.done
        }
    }
}
