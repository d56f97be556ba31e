//! Register accesses.

use super::controller::{SLOT_ENABLE, SLOT_INPUT};
use super::registers::Register;
use super::{Levels, Pair};
use crate::numbers::{DONE, REGISTER_NOT_MODELLED};

impl Pair {
    /// A register read: the number and the value. Only that of VIC0_VAR changes something.
    pub fn read(&mut self, controller: usize, offset: u32, levels: Levels) -> (u32, u32) {
        let Some(register) = Register::at(offset) else {
            return (REGISTER_NOT_MODELLED, 0);
        };
        if register == Register::CurrentVector {
            let vector = match controller {
                0 => self.take(levels),
                _ => self.last_of_vic1(),
            };
            return (DONE, vector);
        }
        let levels = levels[controller];
        let held = &self.controllers[controller];
        let value = match register {
            Register::IrqStatus => held.irq_status(levels).into(),
            Register::FiqStatus => held.fiq_status(levels).into(),
            Register::RawStatus => held.raw(levels).into(),
            Register::Selection => held.selection.into(),
            Register::Enable => held.enable.into(),
            Register::Software => held.software.into(),
            // "Reading the bit returns the reset value", which the manual leaves undefined.
            Register::EnableClear | Register::SoftwareClear => 0,
            Register::Protection => held.protection.into(),
            Register::CurrentVector => unreachable!("read above"),
            Register::DefaultVector => held.default_vector,
            Register::Vector(slot) => held.vectors[slot],
            Register::Control(slot) => held.controls[slot],
        };
        (DONE, value)
    }

    /// A register write. Of the registers of sixteen bits the upper half is reserved.
    pub fn write(&mut self, controller: usize, offset: u32, value: u32) -> u32 {
        let Some(register) = Register::at(offset) else {
            return REGISTER_NOT_MODELLED;
        };
        let bits = value as u16;
        let held = &mut self.controllers[controller];
        match register {
            // Read-only: accepted, and nothing happens.
            Register::IrqStatus | Register::FiqStatus | Register::RawStatus => {}
            Register::Selection => held.selection = bits,
            // "Writing 0 has no effect."
            Register::Enable => held.enable |= bits,
            Register::EnableClear => held.enable &= !bits,
            Register::Software => held.software |= bits,
            Register::SoftwareClear => held.software &= !bits,
            Register::Protection => held.protection = bits & 1 == 1,
            // The write is the sign; its data is not kept.
            Register::CurrentVector => self.end(controller),
            Register::DefaultVector => held.default_vector = value,
            Register::Vector(slot) => held.vectors[slot] = value,
            Register::Control(slot) => held.controls[slot] = value & (SLOT_ENABLE | SLOT_INPUT),
        }
        DONE
    }
}
