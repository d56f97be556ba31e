//! One controller: what it holds, and what its inputs come to by that.

use super::INPUTS;

/// Bits of a vector control: that the slot is enabled, and the input it names. Bit 4 between them
/// is "always read as 0".
pub const SLOT_ENABLE: u32 = 1 << 5;
pub const SLOT_INPUT: u32 = 0xF;

/// What a controller holds; all zero after reset. The registers of sixteen bits have one for each
/// input.
#[derive(Clone, Debug, Default, PartialEq, Eq)]
pub struct Controller {
    pub software: u16,
    pub enable: u16,
    /// Set for FIQ, clear for IRQ.
    pub selection: u16,
    /// Stored without effect: the model has no processor that could be in user mode.
    pub protection: bool,
    pub default_vector: u32,
    pub vectors: [u32; INPUTS],
    pub controls: [u32; INPUTS],
}

impl Controller {
    /// The sources and the software interrupts.
    pub fn raw(&self, levels: u16) -> u16 {
        levels | self.software
    }

    /// "after masking by the VICx_INTER and VICx_INTSR registers"
    pub fn irq_status(&self, levels: u16) -> u16 {
        self.raw(levels) & self.enable & !self.selection
    }

    pub fn fiq_status(&self, levels: u16) -> u16 {
        self.raw(levels) & self.enable & self.selection
    }

    /// The input that a slot names, if the slot is enabled.
    pub fn named(&self, slot: usize) -> Option<usize> {
        let control = self.controls[slot];
        (control & SLOT_ENABLE != 0).then_some((control & SLOT_INPUT) as usize)
    }
}
