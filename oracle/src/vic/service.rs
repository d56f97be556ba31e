//! The current vector address registers: what is taken into service, and what is ended.

use super::{Levels, Pair};

impl Pair {
    /// A read of VIC0_VAR takes the answer into service at its rank then. With none it gives where a
    /// spurious interrupt goes.
    pub fn take(&mut self, levels: Levels) -> u32 {
        match self.answer(levels) {
            Some(request) => {
                self.service.push(request.rank);
                self.vector(request.rank)
            }
            None => self.controllers[0].default_vector,
        }
    }

    /// A read of VIC1_VAR, which a routine for VIC1's requests makes "as well", changes nothing. It
    /// gives the vector that stands now at the rank of the last taken, if that is one of VIC1.
    pub fn last_of_vic1(&self) -> u32 {
        match self.service.last() {
            Some(rank) if rank.controller() == 1 => self.vector(*rank),
            _ => 0,
        }
    }

    /// A write of a VAR ends the last taken if that came from the same controller: so a routine can
    /// write one of them or both.
    pub fn end(&mut self, controller: usize) {
        self.service.pop_if(|rank| rank.controller() == controller);
    }
}
