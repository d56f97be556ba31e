//! Ranks, 0 first: of each controller its slots and then its inputs without a slot, all of VIC0
//! before all of VIC1, since "interrupts mapped on VIC0 will always have higher priority" (4.7).

use super::INPUTS;

/// The ranks of one controller.
const OF_ONE: usize = 2 * INPUTS;

#[derive(Clone, Copy, Debug, PartialEq, Eq, PartialOrd, Ord)]
pub struct Rank(pub usize);

/// What a rank of a controller is for.
#[derive(Clone, Copy, Debug, PartialEq, Eq)]
pub enum Place {
    Slot(usize),
    /// An input that no slot names.
    Input(usize),
}

impl Rank {
    /// Every rank of both controllers, the highest priority first.
    pub fn all() -> impl Iterator<Item = Rank> {
        (0..2 * OF_ONE).map(Rank)
    }

    pub fn controller(self) -> usize {
        self.0 / OF_ONE
    }

    pub fn place(self) -> Place {
        match self.0 % OF_ONE {
            slot @ 0..INPUTS => Place::Slot(slot),
            other => Place::Input(other - INPUTS),
        }
    }
}
