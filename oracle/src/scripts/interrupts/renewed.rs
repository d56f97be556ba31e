//! A new bench makes new controllers, whether its window is allowed or not.

use super::serving;
use super::setup::{self, Inputs};
use crate::scripts::writer::Writer;
use crate::vic::registers::Register;

pub fn at_any_time(writer: &mut Writer) {
    for _ in 0..writer.random.between(3, 6) {
        let count = writer.random.between(2, 8);
        let inputs = Inputs::random(&mut writer.random, count);
        setup::controllers(writer, &inputs);
        for _ in 0..writer.random.between(4, 16) {
            serving::step(writer, &inputs, 4);
        }
        raise(writer, &inputs);
        let new = writer.random.pick(&[
            "new 0 64",
            "new 0 60",
            "new 2 64",
            "new 0 66",
            "new 4 65536",
        ]);
        writer.say(new);
        writer.look_at_interrupts();
        match writer.random.below(3) {
            0 => writer.look_at_registers(),
            // Whatever was in service is so no more.
            1 => {
                writer.vwrite(1, Register::Enable, u32::MAX);
                writer.vwrite(1, Register::Software, 0x8000);
                writer.take_interrupt();
                writer.end_interrupt();
            }
            _ => {}
        }
    }
}

/// Some inputs of both controllers are high, and one of the requests is taken.
fn raise(writer: &mut Writer, inputs: &Inputs) {
    for controller in 0..2 {
        let levels = inputs.some(controller, &mut writer.random);
        writer.set_inputs(controller, levels);
    }
    writer.vread(0, Register::CurrentVector);
}
