//! The IRQ answer and FIQ. The answer is looked for rank by rank, not request by request: each rank
//! has at most one request, and the first that has one gives it.

use super::rank::Place;
use super::{Controller, Levels, Pair, Rank, INPUTS};

/// A raised and enabled IRQ request.
#[derive(Clone, Copy, Debug, PartialEq, Eq)]
pub struct Request {
    pub rank: Rank,
    pub input: usize,
}

impl Pair {
    /// The highest request above all in service.
    pub fn answer(&self, levels: Levels) -> Option<Request> {
        Rank::all()
            .take_while(|rank| self.service.iter().all(|served| rank < served))
            .find_map(|rank| self.request(rank, levels))
    }

    /// The request at a rank, if there is one.
    fn request(&self, rank: Rank, levels: Levels) -> Option<Request> {
        let controller = &self.controllers[rank.controller()];
        let input = match rank.place() {
            Place::Slot(slot) => controller.first_named(slot)?,
            Place::Input(input) => controller.without_a_slot(input)?,
        };
        let status = controller.irq_status(levels[rank.controller()]);
        (status >> input & 1 == 1).then_some(Request { rank, input })
    }

    /// The vector that stands at a rank now: the slot's, or the default one of its controller.
    pub fn vector(&self, rank: Rank) -> u32 {
        let controller = &self.controllers[rank.controller()];
        match rank.place() {
            Place::Slot(slot) => controller.vectors[slot],
            Place::Input(_) => controller.default_vector,
        }
    }

    /// Whether FIQ is high; what is in service does not matter to it.
    pub fn fiq(&self, levels: Levels) -> bool {
        let both = self.controllers.iter().zip(levels);
        both.into_iter()
            .any(|(controller, levels)| controller.fiq_status(levels) != 0)
    }
}

impl Controller {
    /// The input that a slot names, unless a lower slot names it too.
    fn first_named(&self, slot: usize) -> Option<usize> {
        let input = self.named(slot)?;
        let before = (0..slot).any(|lower| self.named(lower) == Some(input));
        (!before).then_some(input)
    }

    /// The input, if no slot names it.
    fn without_a_slot(&self, input: usize) -> Option<usize> {
        let named = (0..INPUTS).any(|slot| self.named(slot) == Some(input));
        (!named).then_some(input)
    }
}
