//! Requests that rise and fall while others are served.

use super::setup::{self, Inputs};
use crate::scripts::writer::Writer;
use crate::vic::registers::Register;

const STATUSES: [Register; 3] = [
    Register::IrqStatus,
    Register::FiqStatus,
    Register::RawStatus,
];

/// All sixteen inputs of both controllers.
pub fn of_any_requests(writer: &mut Writer) {
    let inputs = Inputs::all(&mut writer.random);
    serve(writer, &inputs);
}

/// A few of each, so that slots meet for the same input and requests come again.
pub fn of_few_inputs(writer: &mut Writer) {
    let count = writer.random.between(2, 5);
    let inputs = Inputs::random(&mut writer.random, count);
    serve(writer, &inputs);
}

fn serve(writer: &mut Writer, inputs: &Inputs) {
    writer.say("new 0 64");
    setup::controllers(writer, inputs);
    // Some scripts nest more than they end, others hardly nest.
    let ends = writer.random.pick(&[4, 8, 12]);
    for _ in 0..writer.random.between(60, 140) {
        step(writer, inputs, ends);
    }
    writer.look_at_interrupts();
    if writer.random.once_in(4) {
        writer.look_at_registers();
    }
}

/// One step; `ends` is how often of a hundred one is ended.
pub fn step(writer: &mut Writer, inputs: &Inputs, ends: usize) {
    let controller = writer.controller();
    match writer.random.below(100) {
        0..=17 => {
            let levels = inputs.some(controller, &mut writer.random);
            writer.set_inputs(controller, levels);
        }
        18..=27 => one_input(writer, inputs, controller),
        28..=43 => writer.take_interrupt(),
        44..=49 => {
            writer.say("irq");
        }
        50..=53 => {
            writer.say("fiq");
        }
        54..=56 => {
            writer.vread(1, Register::CurrentVector);
        }
        57..=59 => {
            writer.vread(0, Register::CurrentVector);
        }
        60..=63 => status(writer, controller),
        64..=68 => software(writer, inputs, controller),
        69..=73 => enable(writer, inputs, controller),
        74 | 75 => setup::select(writer, inputs, controller),
        76..=79 => {
            let slot = writer.random.below(16);
            setup::control(writer, inputs, controller, slot);
        }
        80 | 81 => vector(writer, controller),
        82 => writer.any_access(),
        83..=86 => {
            let high = !writer.random.once_in(3);
            writer.set_line(high);
        }
        87 if writer.random.once_in(3) => writer.look_at_interrupts(),
        rest if rest >= 100 - ends => writer.end_interrupt(),
        _ => writer.take_interrupt(),
    }
}

/// One input rises or falls, the others stay.
fn one_input(writer: &mut Writer, inputs: &Inputs, controller: usize) {
    let bit = 1 << inputs.one(controller, &mut writer.random);
    let levels = writer.console.levels()[controller] ^ bit;
    writer.set_inputs(controller, levels);
}

fn status(writer: &mut Writer, controller: usize) {
    let register = writer.random.pick(&STATUSES);
    writer.vread(controller, register);
}

fn software(writer: &mut Writer, inputs: &Inputs, controller: usize) {
    let bits = match writer.random.below(3) {
        0 => inputs.some(controller, &mut writer.random).into(),
        1 => writer.random.word() & 0xFFFF_0000 | 1 << inputs.one(controller, &mut writer.random),
        _ => 1 << inputs.one(controller, &mut writer.random),
    };
    let register = writer.random.pick(&[
        Register::Software,
        Register::Software,
        Register::Software,
        Register::Software,
        Register::SoftwareClear,
        Register::SoftwareClear,
        Register::SoftwareClear,
    ]);
    writer.vwrite(controller, register, bits);
    // A write of a status does nothing.
    if writer.random.once_in(3) {
        let status = writer.random.pick(&STATUSES);
        writer.vwrite(controller, status, u32::MAX);
        writer.vread(controller, Register::RawStatus);
    }
}

/// Disables some, or enables them again.
fn enable(writer: &mut Writer, inputs: &Inputs, controller: usize) {
    let bits = match writer.random.below(4) {
        0 => u32::MAX,
        1 => inputs.some(controller, &mut writer.random).into(),
        _ => 1 << inputs.one(controller, &mut writer.random),
    };
    match writer.random.below(3) {
        0 if bits != u32::MAX => writer.vwrite(controller, Register::EnableClear, bits),
        _ => writer.vwrite(controller, Register::Enable, bits),
    }
}

/// Changes a vector, half of the time that of the last taken.
fn vector(writer: &mut Writer, controller: usize) {
    if writer.random.once_in(2) {
        writer.move_last_vector();
        return;
    }
    let register = match writer.random.below(3) {
        0 => Register::DefaultVector,
        _ => Register::Vector(writer.random.below(16)),
    };
    let value = writer.random.word();
    writer.vwrite(controller, register, value);
}
