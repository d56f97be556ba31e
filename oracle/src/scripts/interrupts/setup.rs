//! How a script sets up the controllers, and which of their inputs it plays with.

use crate::random::Random;
use crate::scripts::writer::Writer;
use crate::vic::registers::Register;

const SLOT_ENABLE: u32 = 0x20;
/// The bench's input of VIC0.
const ETHERNET: usize = 11;

/// The inputs of each controller that a script plays with.
pub struct Inputs {
    of: [Vec<usize>; 2],
    /// VIC0 asks seldom, so that VIC1 is heard.
    quiet: bool,
}

impl Inputs {
    /// So many of each, the bench's among those of VIC0.
    pub fn random(random: &mut Random, count: usize) -> Inputs {
        let mut of = [(); 2].map(|()| (0..count).map(|_| random.below(16)).collect::<Vec<_>>());
        of[0][0] = ETHERNET;
        let quiet = random.once_in(2);
        Inputs { of, quiet }
    }

    pub fn all(random: &mut Random) -> Inputs {
        let all: Vec<usize> = (0..16).collect();
        Inputs {
            of: [all.clone(), all],
            quiet: random.once_in(2),
        }
    }

    /// One of a controller's.
    pub fn one(&self, controller: usize, random: &mut Random) -> usize {
        random.pick(&self.of[controller])
    }

    /// Some of a controller's, by their bits.
    pub fn some(&self, controller: usize, random: &mut Random) -> u16 {
        let mut chosen = random.draw() & random.draw();
        if self.quiet && controller == 0 {
            chosen &= random.draw() & random.draw();
        }
        let inputs = self.of[controller].iter().enumerate();
        let inputs = inputs.filter(|(place, _)| chosen >> place & 1 == 1);
        inputs.fold(0, |bits, (_, input)| bits | 1 << input)
    }
}

/// Sets up both controllers: vectors that tell all slots apart, most inputs enabled for IRQ.
pub fn controllers(writer: &mut Writer, inputs: &Inputs) {
    for controller in 0..2 {
        let default = writer.random.word();
        writer.vwrite(controller, Register::DefaultVector, default);
        let slots = writer.random.between(2, 10);
        for _ in 0..slots {
            let slot = writer.random.below(16);
            let vector = writer.random.word();
            writer.vwrite(controller, Register::Vector(slot), vector);
            control(writer, inputs, controller, slot);
        }
        let enable = match writer.random.below(3) {
            0 => writer.random.word() | writer.random.word(),
            _ => u32::MAX,
        };
        writer.vwrite(controller, Register::Enable, enable);
        if writer.random.once_in(3) {
            select(writer, inputs, controller);
        }
        // Stored without effect.
        if writer.random.once_in(4) {
            writer.vwrite(controller, Register::Protection, u32::MAX);
            writer.vread(controller, Register::Protection);
        }
    }
}

/// Lets a slot name one of the inputs, most often enabled.
pub fn control(writer: &mut Writer, inputs: &Inputs, controller: usize, slot: usize) {
    let input = inputs.one(controller, &mut writer.random) as u32;
    let value = match writer.random.below(8) {
        0 => 0,
        1 | 2 => input,
        3 => SLOT_ENABLE | 0x10 | input,
        4 => writer.random.word() & !0x2F | SLOT_ENABLE | input,
        _ => SLOT_ENABLE | input,
    };
    writer.vwrite(controller, Register::Control(slot), value);
}

/// Selects a few inputs for FIQ, or none.
pub fn select(writer: &mut Writer, inputs: &Inputs, controller: usize) {
    let selected = match writer.random.below(3) {
        0 => 0,
        1 => 1 << inputs.one(controller, &mut writer.random),
        _ => u32::from(inputs.some(controller, &mut writer.random)) & writer.random.word(),
    };
    writer.vwrite(controller, Register::Selection, selected);
}
