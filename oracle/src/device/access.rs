//! Register accesses and the interrupt line.

use super::engine::{RECEIVE, SEND};
use super::registers::{Name, Registers};
use super::Bench;
use crate::address::Filter;
use crate::numbers::{DONE, REGISTER_NOT_MODELLED, WHILE_RUNNING};

impl Bench {
    /// A register read: the number and the value.
    pub fn read(&self, offset: u32) -> (u32, u32) {
        match Registers::at(offset) {
            Some(form) => (DONE, self.registers.get(form.name)),
            None => (REGISTER_NOT_MODELLED, 0),
        }
    }

    /// A register write.
    pub fn write(&mut self, offset: u32, value: u32) -> u32 {
        let Some(form) = Registers::at(offset) else {
            return REGISTER_NOT_MODELLED;
        };
        let engines = [(&mut self.receiver, RECEIVE), (&mut self.sender, SEND)];
        for (engine, direction) in engines {
            if form.name == direction.next && engine.running {
                return WHILE_RUNNING;
            }
            if form.name == direction.start {
                engine.start_write(value, self.registers.get(direction.next));
            }
        }
        self.registers.put(form, value);
        // "Value 0 keeps it at 0, from the write on": the value that the register takes.
        if form.name == Name::SendTimeOut && self.registers.get(Name::SendTimeOut) == 0 {
            self.ticks = 0;
        }
        DONE
    }

    /// Whether the interrupt line is high.
    pub fn line(&self) -> bool {
        let status = self.registers.get(Name::InterruptStatus);
        status & self.registers.get(Name::InterruptEnable) != 0
    }

    /// What the address filter goes by.
    pub fn filter(&self) -> Filter {
        Filter {
            control: self.registers.get(Name::MacControl),
            high: self.registers.get(Name::AddressHigh),
            low: self.registers.get(Name::AddressLow),
            hash_high: self.registers.get(Name::HashHigh),
            hash_low: self.registers.get(Name::HashLow),
        }
    }
}
