//! Examples worked out by hand from chapter 4 and the rules for it.

mod claims;
mod ends;
mod fiq;
mod inputs;
mod nesting;
mod ranks;
mod register_access;
mod statuses;
mod taking;

use super::{Levels, Pair};

/// Register offsets.
const ISR: u32 = 0x000;
const FSR: u32 = 0x004;
const RINTSR: u32 = 0x008;
const INTSR: u32 = 0x00C;
const INTER: u32 = 0x010;
const INTECR: u32 = 0x014;
const SWINTR: u32 = 0x018;
const SWINTCR: u32 = 0x01C;
const PER: u32 = 0x020;
const VAR: u32 = 0x030;
const DVAR: u32 = 0x034;
const VA0R: u32 = 0x100;
const VC0R: u32 = 0x200;

/// The enable bit of a vector control.
const E: u32 = 0x20;

/// The default vectors of VIC0 and VIC1 in these examples.
const DEFAULTS: [u32; 2] = [0xD000_0000, 0xD100_0000];

/// A pair and what stands at its inputs.
#[derive(Clone, Debug, PartialEq)]
struct Trial {
    pair: Pair,
    levels: Levels,
}

impl Trial {
    /// Both controllers with all inputs enabled and each vector another: slot 10 of VIC1 has
    /// A1000A00. No slot is enabled, and no input high.
    fn new() -> Trial {
        let mut trial = Trial {
            pair: Pair::default(),
            levels: [0; 2],
        };
        for controller in 0..2 {
            trial.write(controller, INTER, 0xFFFF);
            trial.write(controller, DVAR, DEFAULTS[controller]);
            for slot in 0..16 {
                trial.write(controller, VA0R + 4 * slot, vector(controller, slot));
            }
        }
        trial
    }

    fn write(&mut self, controller: usize, offset: u32, value: u32) {
        assert_eq!(self.pair.write(controller, offset, value), 0);
    }

    fn read(&mut self, controller: usize, offset: u32) -> u32 {
        let (number, value) = self.pair.read(controller, offset, self.levels);
        assert_eq!(number, 0);
        value
    }

    /// Lets a slot name an input.
    fn slot(&mut self, controller: usize, slot: u32, input: u32) {
        self.write(controller, VC0R + 4 * slot, E | input);
    }

    /// The answer: its controller, its input and its vector.
    fn irq(&self) -> Option<(usize, usize, u32)> {
        let request = self.pair.answer(self.levels)?;
        let vector = self.pair.vector(request.rank);
        Some((request.rank.controller(), request.input, vector))
    }

    /// Reads VIC0_VAR.
    fn take(&mut self) -> u32 {
        self.read(0, VAR)
    }

    fn ranks(&self) -> Vec<usize> {
        self.pair.service.iter().map(|rank| rank.0).collect()
    }
}

/// The vector of a slot in these examples.
fn vector(controller: usize, slot: u32) -> u32 {
    0xA000_0000 + 0x0100_0000 * controller as u32 + 0x100 * slot
}
