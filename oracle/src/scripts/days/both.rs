//! Both engines at work in a small window full of descriptors over each other.

use super::{grant, send};
use crate::scripts::chaos::{descriptor, engine, small_window};
use crate::scripts::writer::Writer;

pub fn in_a_small_window(writer: &mut Writer) {
    small_window(writer);
    for _ in 0..writer.random.between(1, 8) {
        descriptor(writer);
    }
    writer.say("write 400 80000000");
    engine(writer);
    for _ in 0..writer.random.between(10, 60) {
        match writer.random.below(8) {
            0 => engine(writer),
            1 | 2 => {
                writer.frame();
            }
            3 | 4 => {
                send(writer);
            }
            5 | 6 => grant(writer),
            _ => writer.register_write(),
        }
    }
}
