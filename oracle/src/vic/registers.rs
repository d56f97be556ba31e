//! The registers of one controller by their offsets (4.10 and Table 14).

use super::INPUTS;
use std::fmt;

#[derive(Clone, Copy, Debug, PartialEq, Eq)]
pub enum Register {
    IrqStatus,
    FiqStatus,
    RawStatus,
    Selection,
    Enable,
    EnableClear,
    Software,
    SoftwareClear,
    Protection,
    CurrentVector,
    DefaultVector,
    Vector(usize),
    Control(usize),
}

/// Those that stand once, with their names in the manual.
const SINGLE: [(u32, Register, &str); 11] = [
    (0x000, Register::IrqStatus, "ISR"),
    (0x004, Register::FiqStatus, "FSR"),
    (0x008, Register::RawStatus, "RINTSR"),
    (0x00C, Register::Selection, "INTSR"),
    (0x010, Register::Enable, "INTER"),
    (0x014, Register::EnableClear, "INTECR"),
    (0x018, Register::Software, "SWINTR"),
    (0x01C, Register::SoftwareClear, "SWINTCR"),
    (0x020, Register::Protection, "PER"),
    (0x030, Register::CurrentVector, "VAR"),
    (0x034, Register::DefaultVector, "DVAR"),
];

/// Where the sixteen vector addresses and the sixteen vector controls begin.
const VECTORS: u32 = 0x100;
const CONTROLS: u32 = 0x200;

impl Register {
    /// The register at exactly this offset, if there is one.
    pub fn at(offset: u32) -> Option<Register> {
        let single = SINGLE.into_iter().find(|(place, ..)| *place == offset);
        let single = single.map(|(_, register, _)| register);
        single.or_else(|| Register::of_slots().find(|register| register.offset() == offset))
    }

    pub fn all() -> impl Iterator<Item = Register> {
        let single = SINGLE.into_iter().map(|(_, register, _)| register);
        single.chain(Register::of_slots())
    }

    fn of_slots() -> impl Iterator<Item = Register> {
        let vectors = (0..INPUTS).map(Register::Vector);
        vectors.chain((0..INPUTS).map(Register::Control))
    }

    pub fn offset(self) -> u32 {
        match self {
            Register::Vector(slot) => VECTORS + 4 * slot as u32,
            Register::Control(slot) => CONTROLS + 4 * slot as u32,
            _ => self.single().0,
        }
    }

    fn single(self) -> (u32, Register, &'static str) {
        let found = SINGLE.into_iter().find(|(_, other, _)| *other == self);
        found.expect("the others stand in the table")
    }
}

/// As the manual writes it behind `VICx_`.
impl fmt::Display for Register {
    fn fmt(&self, out: &mut fmt::Formatter) -> fmt::Result {
        match self {
            Register::Vector(slot) => write!(out, "VA{slot}R"),
            Register::Control(slot) => write!(out, "VC{slot}R"),
            _ => out.write_str(self.single().2),
        }
    }
}
