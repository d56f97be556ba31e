//! The second model's registers.

use super::model::{Model, Served};
use super::slip::Slip;
use crate::vic::registers::Register;

const LOW_HALF: u32 = 0xFFFF;

impl Model {
    pub fn read(&mut self, controller: usize, register: Register) -> u32 {
        let held = &self.held[controller];
        match register {
            Register::IrqStatus => {
                let status = self.irq_status(controller);
                match self.slip {
                    Some(Slip::StatusMasked) => return status & self.unmasked(controller),
                    Some(Slip::TakenByStatus) => self.take(),
                    _ => None,
                };
                status
            }
            Register::FiqStatus => self.fiq_status(controller),
            Register::RawStatus => self.raw(controller),
            Register::Selection => held.selection,
            Register::Enable => held.enable,
            Register::EnableClear if self.makes(Slip::ClearsRead) => held.enable,
            Register::Software => held.software,
            Register::SoftwareClear if self.makes(Slip::ClearsRead) => held.software,
            Register::EnableClear | Register::SoftwareClear => 0,
            Register::Protection => held.protection,
            Register::CurrentVector if controller == 0 => self.vic0_var(),
            Register::CurrentVector => self.vic1_var(),
            Register::DefaultVector => held.default,
            Register::Vector(slot) => held.vectors[slot],
            Register::Control(slot) => held.controls[slot],
        }
    }

    fn vic0_var(&mut self) -> u32 {
        let spurious = match self.slip {
            Some(Slip::SpuriousZero) => 0,
            Some(Slip::SpuriousLast) => match self.service.last() {
                Some(served) => served.vector,
                None => self.held[0].default,
            },
            Some(Slip::VarDataKept) => self.written,
            _ => self.held[0].default,
        };
        if self.makes(Slip::NeverTaken) {
            let found = self.highest();
            return found.map_or(spurious, |stand| self.vector(stand));
        }
        self.take().unwrap_or(spurious)
    }

    fn vic1_var(&mut self) -> u32 {
        if self.makes(Slip::TakenByVic1Var) {
            self.take();
        }
        let other = match self.makes(Slip::Vic1VarNeverZero) {
            true => self.held[1].default,
            false => 0,
        };
        let last = match self.makes(Slip::Vic1VarBelow) {
            true => self.last_of(1),
            false => self.service.len().checked_sub(1),
        };
        match last.map(|place| self.service[place]) {
            Some(served) if served.stand.controller == 1 => match self.slip {
                Some(Slip::Vic1VarDefault) => self.held[1].default,
                Some(Slip::Vic1VarThen) => served.vector,
                _ => self.vector(served.stand),
            },
            _ => other,
        }
    }

    /// Takes the highest into service, if there is one; gives its vector.
    pub fn take(&mut self) -> Option<u32> {
        let stand = self.highest()?;
        let vector = self.vector(stand);
        self.service.push(Served { stand, vector });
        let bit = 1 << stand.input;
        self.latched[stand.controller] &= !bit;
        if self.makes(Slip::SoftwareClearedByTaking) {
            self.held[stand.controller].software &= !bit;
        }
        Some(vector)
    }

    /// The place in service of the last one taken from a controller.
    fn last_of(&self, controller: usize) -> Option<usize> {
        let from = |served: &Served| served.stand.controller == controller;
        self.service.iter().rposition(from)
    }

    pub fn write(&mut self, controller: usize, register: Register, value: u32) {
        let slip = self.slip;
        let held = &mut self.held[controller];
        let protected = held.protection & 1 == 1 && register != Register::Protection;
        if protected && slip == Some(Slip::ProtectionWorks) {
            return;
        }
        let bits = match slip {
            Some(Slip::UpperHalves) => value,
            _ => value & LOW_HALF,
        };
        let vector = match slip {
            Some(Slip::VectorsOf16Bits) => value & LOW_HALF,
            _ => value,
        };
        match register {
            Register::IrqStatus | Register::FiqStatus | Register::RawStatus => {
                if slip == Some(Slip::StatusWritten) {
                    held.software &= !bits;
                }
            }
            Register::Selection if slip == Some(Slip::SelectionSet) => held.selection |= bits,
            Register::Selection => held.selection = bits,
            Register::Enable if slip == Some(Slip::EnableWritten) => held.enable = bits,
            Register::Enable => held.enable |= bits,
            Register::EnableClear if slip == Some(Slip::EnableClearWritten) => {
                held.enable = !bits & LOW_HALF
            }
            Register::EnableClear => held.enable &= !bits,
            Register::Software if slip == Some(Slip::SoftwareWritten) => held.software = bits,
            Register::Software => held.software |= bits,
            Register::SoftwareClear => held.software &= !bits,
            Register::Protection if slip == Some(Slip::WideProtection) => held.protection = bits,
            Register::Protection => held.protection = bits & 1,
            Register::CurrentVector => {
                if controller == 0 {
                    self.written = value;
                }
                self.end(controller);
            }
            Register::DefaultVector => held.default = vector,
            Register::Vector(slot) => held.vectors[slot] = vector,
            Register::Control(slot) if slip == Some(Slip::ControlBit4) => {
                held.controls[slot] = value & 0x3F
            }
            Register::Control(slot) => held.controls[slot] = value & 0x2F,
        }
    }

    /// A write of a controller's VAR.
    fn end(&mut self, controller: usize) {
        let last = self.service.len().checked_sub(1);
        let place = match self.slip {
            Some(Slip::FirstTakenEnds) => last.map(|_| 0),
            Some(Slip::ListForEach) => self.last_of(controller),
            Some(Slip::Vic0VarEndsEither) if controller == 1 => None,
            _ => last,
        };
        let Some(place) = place else {
            return;
        };
        let either = matches!(self.slip, Some(Slip::AnyVarEnds | Slip::Vic0VarEndsEither));
        if self.service[place].stand.controller != controller && !either {
            return;
        }
        match self.makes(Slip::AllEnd) {
            true => self.service.clear(),
            false => {
                self.service.remove(place);
            }
        }
    }
}
