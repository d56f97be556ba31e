//! Single calls to the controllers with arguments worth trying.

use crate::scripts::writer::Writer;
use crate::vic::registers::Register;
use crate::vic::Place;

/// Offsets at which there is no register: beside one, between them, past the last one, and with a
/// register's low bits.
const NOWHERE: [u32; 20] = [
    0x001,
    0x012,
    0x024,
    0x028,
    0x02C,
    0x031,
    0x033,
    0x036,
    0x038,
    0x0FC,
    0x102,
    0x13F,
    0x140,
    0x1FC,
    0x201,
    0x23E,
    0x240,
    0x1030,
    0x8000_0030,
    0xFFFF_F030,
];

impl Writer {
    pub fn vread(&mut self, controller: usize, register: Register) -> String {
        let offset = register.offset();
        self.say(format!("vread {controller} {offset:x}"))
    }

    pub fn vwrite(&mut self, controller: usize, register: Register, value: u32) {
        let offset = register.offset();
        self.say(format!("vwrite {controller} {offset:X} {value:x}"));
    }

    /// Sets the levels of a controller's inputs; what stands above them is not looked at.
    pub fn set_inputs(&mut self, controller: usize, levels: u16) {
        let above = match self.random.below(4) {
            0 => self.random.word() << 16,
            _ => 0,
        };
        self.say(format!(
            "inputs {controller} {:x}",
            above | u32::from(levels)
        ));
    }

    pub fn controller(&mut self) -> usize {
        self.random.below(2)
    }

    /// Reads VIC0_VAR, most often after asking for the answer.
    pub fn take_interrupt(&mut self) {
        if !self.random.once_in(3) {
            self.say("irq");
        }
        self.vread(0, Register::CurrentVector);
        match self.random.below(16) {
            0 => self.move_last_vector(),
            1..=4 => {
                self.vread(1, Register::CurrentVector);
            }
            _ => {}
        }
    }

    /// Changes the vector that stands at the rank of the last taken, and reads VIC1_VAR.
    pub fn move_last_vector(&mut self) {
        let value = self.random.word();
        if let Some(rank) = self.console.pair.service.last().copied() {
            let register = match rank.place() {
                Place::Slot(slot) => Register::Vector(slot),
                Place::Input(_) => Register::DefaultVector,
            };
            self.vwrite(rank.controller(), register, value);
        }
        self.vread(1, Register::CurrentVector);
    }

    /// Ends the last taken as a routine should, by one VAR or both, and at times by another.
    pub fn end_interrupt(&mut self) {
        let from = match self.console.pair.service.last() {
            Some(rank) => rank.controller(),
            None => self.controller(),
        };
        match self.random.below(8) {
            0 => self.write_var(1 - from),
            1 if from == 1 => {
                self.write_var(0);
                self.write_var(1);
            }
            2 if from == 1 => {
                self.write_var(1);
                self.write_var(0);
            }
            _ => self.write_var(from),
        }
    }

    /// Any data does.
    pub fn write_var(&mut self, controller: usize) {
        let value = match self.random.below(2) {
            0 => 0,
            _ => self.random.word(),
        };
        self.vwrite(controller, Register::CurrentVector, value);
    }

    /// Looks at what the controllers make of their inputs.
    pub fn look_at_interrupts(&mut self) {
        self.say("irq");
        self.say("fiq");
        for controller in 0..2 {
            self.vread(controller, Register::IrqStatus);
            self.vread(controller, Register::FiqStatus);
            self.vread(controller, Register::RawStatus);
        }
    }

    /// Reads every register of one controller; that may take an interrupt.
    pub fn look_at_registers(&mut self) {
        let controller = self.controller();
        for register in Register::all() {
            self.vread(controller, register);
        }
    }

    /// An access to any offset, most often to a register.
    pub fn any_access(&mut self) {
        let registers: Vec<Register> = Register::all().collect();
        let register = self.random.pick(&registers).offset();
        let offset = match self.random.below(8) {
            0 | 4 => self.random.pick(&NOWHERE),
            1 if self.random.once_in(2) => register + self.random.between(1, 3) as u32,
            2 if self.random.once_in(4) => register | 1 << self.random.between(10, 31),
            3 if self.random.once_in(2) => self.random.below(0x280) as u32,
            _ => register,
        };
        let controller = self.controller();
        if self.random.once_in(2) {
            self.say(format!("vread {controller} {offset:03X}"));
        } else {
            let value = self.register_value();
            self.say(format!("vwrite {controller} {offset:08x} {value:08X}"));
        }
    }

    pub fn register_value(&mut self) -> u32 {
        match self.random.below(6) {
            0 => 0,
            1 => u32::MAX,
            2 => 1 << self.random.below(32),
            3 => self.random.word() & 0xFFFF_0000,
            _ => self.random.word(),
        }
    }

    /// The bench's line, high or low, by its enable register: bits 0, 16 and 18 of its status are set
    /// after reset and stay so unless they are cleared.
    pub fn set_line(&mut self, high: bool) {
        let enable = match high {
            true => self.random.pick(&[0x1, 0x1_0000, 0x4_0000, u32::MAX]),
            false => self.random.pick(&[0, 0x8]),
        };
        self.say(format!("write 4 {enable:x}"));
    }
}
