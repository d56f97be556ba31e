//! The second model's answer: each request's place in the order, and the first of them.

use super::model::{Model, Stand};
use super::slip::Slip;

const SLOT_ENABLE: usize = 0x20;

impl Model {
    /// The highest request that what is in service does not mask.
    pub fn highest(&self) -> Option<Stand> {
        let requests = (0..2).flat_map(|controller| {
            let status = self.answered(controller);
            let raised = (0..16).filter(move |input| status >> input & 1 == 1);
            raised.map(move |input| self.stand(controller, input))
        });
        requests
            .filter(|stand| !(self.makes(Slip::WithoutASlotNone) && stand.slot.is_none()))
            .filter(|stand| !self.masked(*stand))
            .min_by_key(|stand| self.order(*stand))
    }

    /// The inputs of a controller whose requests are answered.
    fn answered(&self, controller: usize) -> u32 {
        let held = &self.held[controller];
        match self.slip {
            Some(Slip::FiqAnswered) => self.raw(controller) & held.enable,
            Some(Slip::DisabledAnswered) => self.raw(controller) & !held.selection,
            Some(Slip::SoftwareNotAnswered) => {
                self.irq_status(controller) & self.levels(controller)
            }
            _ => self.irq_status(controller),
        }
    }

    /// Where a request stands by the controls as they are now.
    fn stand(&self, controller: usize, input: usize) -> Stand {
        let names = |slot: &usize| {
            let control = self.held[controller].controls[*slot] as usize;
            let enabled = control & SLOT_ENABLE != 0 || self.makes(Slip::SlotEnableIgnored);
            enabled && control & 0xF == input
        };
        let slot = match self.makes(Slip::HigherSlotOfTwo) {
            true => (0..16).rev().find(names),
            false => (0..16).find(names),
        };
        Stand {
            controller,
            input,
            slot,
        }
    }

    /// The place in the order of all, 0 first.
    fn order(&self, stand: Stand) -> usize {
        let Stand {
            controller,
            input,
            slot,
        } = stand;
        let within = match (self.slip, slot) {
            (Some(Slip::SlotsReversed), Some(slot)) => 15 - slot,
            (Some(Slip::WithoutASlotFirst), Some(slot)) => 16 + slot,
            (Some(Slip::WithoutASlotFirst), None) => input,
            (Some(Slip::HigherInputsFirst), None) => 16 + 15 - input,
            (Some(Slip::Vic1SlotsBefore), None) => 32 + input,
            (_, Some(slot)) => slot,
            (_, None) => 16 + input,
        };
        match self.slip {
            Some(Slip::Vic1First) => 32 * (1 - controller) + within,
            Some(Slip::Vic1SlotsBefore) => 16 * controller + within,
            _ => 32 * controller + within,
        }
    }

    /// Whether one in service masks a request.
    fn masked(&self, stand: Stand) -> bool {
        self.service.iter().any(|served| {
            let by = match self.makes(Slip::RankNow) {
                true => self.stand(served.stand.controller, served.stand.input),
                false => served.stand,
            };
            let (by_order, order) = (self.order(by), self.order(stand));
            match self.slip {
                Some(Slip::EqualRank) => by_order < order,
                Some(Slip::OwnRankAlone) => by_order == order,
                Some(Slip::ListForEach) => by.controller == stand.controller && by_order <= order,
                Some(Slip::WhileRaised) => {
                    let raised = self.raw(by.controller) >> by.input & 1 == 1;
                    raised && by_order <= order
                }
                _ => by_order <= order,
            }
        })
    }

    /// The vector of a request, or of one in service, as it stands now.
    pub fn vector(&self, stand: Stand) -> u32 {
        let held = &self.held[stand.controller];
        match stand.slot {
            Some(slot) if !self.makes(Slip::DefaultAlways) => held.vectors[slot],
            _ if self.makes(Slip::DefaultOfVic0) => self.held[0].default,
            _ => held.default,
        }
    }

    /// The inputs of a controller whose requests are not masked.
    pub fn unmasked(&self, controller: usize) -> u32 {
        let inputs = (0..16).filter(|input| !self.masked(self.stand(controller, *input)));
        inputs.map(|input| 1 << input).sum()
    }
}
