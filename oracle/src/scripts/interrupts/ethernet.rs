//! The bench's own interrupt: raised by frames that come in and go out, taken, served and ended
//! while other requests come and go.

use super::serving;
use super::setup::{self, Inputs};
use crate::scripts::writer::Writer;
use crate::vic::registers::Register;
use crate::{check, hex};

/// RX_CURR_DONE and PACKET_LOST.
const RECEIVED: u32 = 0x8020;

pub fn served(writer: &mut Writer) {
    // A descriptor that leads to itself with polling, and a bench that takes every frame.
    writer.say("new 0 4096");
    writer.say("poke 0 50400000000100000100000000000000");
    writer.say("write 400 80000000");
    writer.say("write 1c 1");
    writer.say("write 10 5");
    let count = writer.random.between(2, 6);
    let inputs = Inputs::random(&mut writer.random, count);
    setup::controllers(writer, &inputs);
    writer.vwrite(0, Register::Enable, 0x800);
    writer.say(format!("write 8 {:x}", u32::MAX));
    writer.say(format!("write 4 {RECEIVED:x}"));
    for _ in 0..writer.random.between(10, 20) {
        match writer.random.below(3) {
            0 => serving::step(writer, &inputs, 10),
            1 => others(writer, &inputs),
            _ => {}
        }
        come_in(writer);
        writer.take_interrupt();
        if writer.random.once_in(2) {
            serving::step(writer, &inputs, 10);
        }
        serve(writer);
    }
    writer.say("state");
    writer.say("check");
    writer.look_at_interrupts();
}

/// Few others are raised, so that the bench's is the highest often.
fn others(writer: &mut Writer, inputs: &Inputs) {
    for controller in 0..2 {
        let levels = match writer.random.below(2) {
            0 => 0,
            _ => inputs.some(controller, &mut writer.random),
        };
        writer.set_inputs(controller, levels);
    }
}

/// A frame, most often one for which there is a descriptor.
fn come_in(writer: &mut Writer) {
    if !writer.random.once_in(4) {
        writer.say("grant 0");
    }
    let frame = check::closed(&writer.random.bytes(60));
    writer.say(format!("frame {}", hex::write(&frame)));
    if writer.random.once_in(2) {
        writer.say("line");
    }
}

/// Clears what raised the line, most often, and ends the last taken before or behind it.
fn serve(writer: &mut Writer) {
    let first = writer.random.once_in(3);
    if first {
        writer.end_interrupt();
    }
    if writer.random.once_in(3) {
        writer.say("read 8");
    }
    if !writer.random.once_in(6) {
        writer.say(format!("write 8 {RECEIVED:x}"));
    }
    if !first {
        writer.end_interrupt();
    }
    writer.say("irq");
}
