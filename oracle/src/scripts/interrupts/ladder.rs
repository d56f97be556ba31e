//! Deep nesting: each request above all that are in service, one after the other, and back.

use super::setup::{self, Inputs};
use crate::scripts::writer::Writer;
use crate::vic::registers::Register;

const SLOT_ENABLE: u32 = 0x20;

/// Requests rise until there is one above all in service; some are ended in between.
pub fn up_and_down(writer: &mut Writer) {
    writer.say("new 0 64");
    let inputs = Inputs::all(&mut writer.random);
    setup::controllers(writer, &inputs);
    for _ in 0..writer.random.between(1, 3) {
        // From those of VIC1 on; one more input is high at each rung.
        for controller in [1, 0] {
            writer.set_inputs(controller, 0);
            for _ in 0..writer.random.between(3, 12) {
                rung(writer, &inputs, controller);
            }
        }
        down(writer);
        writer.set_inputs(0, 0);
        writer.set_inputs(1, 0);
    }
}

fn rung(writer: &mut Writer, inputs: &Inputs, controller: usize) {
    let input = next(writer, inputs, controller);
    let levels = writer.console.levels()[controller] | 1 << input;
    writer.set_inputs(controller, levels);
    writer.take_interrupt();
    match writer.random.below(12) {
        0 => writer.end_interrupt(),
        1 => {
            let slot = writer.random.below(16);
            setup::control(writer, inputs, controller, slot);
        }
        2 => {
            writer.vread(1, Register::CurrentVector);
        }
        3 => {
            let controller = writer.controller();
            writer.vread(controller, Register::IrqStatus);
        }
        _ => {}
    }
}

/// An input that is above all in service, if one is found, and not far above.
fn next(writer: &mut Writer, inputs: &Inputs, controller: usize) -> usize {
    let tried = [(); 5].map(|()| inputs.one(controller, &mut writer.random));
    let rank = |input: &usize| {
        let mut alone = [0; 2];
        alone[controller] = 1 << input;
        let answer = writer.console.pair.answer(alone);
        answer.map(|request| request.rank)
    };
    let above = tried.into_iter().max_by_key(rank);
    above.unwrap_or_default()
}

/// Ends all, as routines do or with a write too many now and then.
fn down(writer: &mut Writer) {
    while !writer.console.pair.service.is_empty() {
        writer.end_interrupt();
        match writer.random.below(4) {
            0 => writer.take_interrupt(),
            1 => {
                writer.say("irq");
            }
            _ => {}
        }
        // Fewer are raised now, or it would go on for long.
        let controller = writer.controller();
        let levels = writer.console.levels()[controller] & writer.random.word() as u16;
        writer.set_inputs(controller, levels);
    }
}

/// One input of each controller goes up through higher and higher slots while it is served in the
/// lower ones: a rank in service is the one that it was taken at.
pub fn by_changed_controls(writer: &mut Writer) {
    writer.say("new 0 64");
    for controller in [1, 0] {
        let input = writer.random.below(16) as u32;
        let default = writer.random.word();
        writer.vwrite(controller, Register::DefaultVector, default);
        writer.vwrite(controller, Register::Enable, u32::MAX);
        match (controller, input) {
            (0, 11) => writer.set_line(true),
            _ => writer.set_inputs(controller, 1 << input),
        }
        writer.take_interrupt();
        let mut slot = 16;
        while slot > 0 {
            slot -= writer.random.between(1, slot.min(4));
            let vector = writer.random.word();
            writer.vwrite(controller, Register::Vector(slot), vector);
            // Now and then a higher slot that is not enabled, or that is behind the others.
            if writer.random.once_in(4) {
                let other = writer.random.below(16);
                let value = writer.random.pick(&[input, SLOT_ENABLE | input]);
                writer.vwrite(controller, Register::Control(other), value);
            }
            writer.vwrite(controller, Register::Control(slot), SLOT_ENABLE | input);
            writer.say("irq");
            writer.take_interrupt();
        }
        if writer.random.once_in(2) {
            for slot in 0..16 {
                writer.vwrite(controller, Register::Control(slot), 0);
            }
            writer.say("irq");
        }
    }
    down(writer);
    writer.look_at_interrupts();
}
