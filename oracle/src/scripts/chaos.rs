//! Small windows full of descriptors over each other, both engines at work.

use super::layout::{NEXT_ENABLE, VALID};
use super::writer::Writer;
use crate::side::Side;

/// A new window in which a few descriptors are many.
pub fn small_window(writer: &mut Writer) {
    let words = match writer.random.below(3) {
        0 => writer.random.between(16, 40),
        1 => writer.random.between(40, 120),
        _ => writer.random.between(400, 900),
    };
    writer.new_bench(4 * words as u32);
}

pub fn in_a_small_window(writer: &mut Writer) {
    small_window(writer);
    // Half with other filters: then bits 27 and 28 of a status word may become part of another
    // descriptor's address.
    match writer.random.below(2) {
        0 => writer.set_filter(),
        _ => {
            writer.say("write 400 80000000");
        }
    }
    for _ in 0..writer.random.between(1, 6) {
        descriptor(writer);
    }
    for _ in 0..writer.random.between(30, 90) {
        match writer.random.below(9) {
            0 => descriptor(writer),
            1 => engine(writer),
            2 | 3 => {
                writer.frame();
                writer.say("check");
            }
            4 => {
                writer.say("run 5 9000");
                writer.say("state");
            }
            5 => writer.observe(),
            6 => {
                writer.burst();
                writer.say("check");
                writer.say("state");
            }
            _ => writer.any(),
        }
    }
    let length = writer.length();
    writer.say(format!("peek {:x} {length}", writer.base()));
    writer.observe();
}

/// A word address in the window.
fn inside(writer: &mut Writer) -> u32 {
    let words = writer.length() as usize / 4;
    writer
        .base()
        .wrapping_add(4 * writer.random.below(words) as u32)
}

/// A descriptor at any word, over whatever stands there.
pub fn descriptor(writer: &mut Writer) {
    let address = inside(writer);
    let count = match writer.random.below(4) {
        0 => writer.random.pick(&[0, 13, 14, 60, 1_515, 4_095]),
        1 => writer.length().min(4_095),
        _ => writer.random.between(14, 120) as u32,
    };
    let mut control = count;
    if !writer.random.once_in(4) {
        control |= NEXT_ENABLE;
    }
    let mut start = inside(writer);
    if writer.random.once_in(10) {
        start |= writer.random.between(1, 3) as u32;
    }
    let next = match writer.marks.is_empty() || writer.random.once_in(3) {
        true => inside(writer),
        false => writer.mark(),
    };
    let next = next | writer.low_bits();
    let status = writer
        .random
        .pick(&[VALID, VALID, VALID, 64, 100, 0x1_0040]);
    for (place, word) in [control, start, next, status].into_iter().enumerate() {
        writer.poke_word(address.wrapping_add(4 * place as u32), word);
    }
    if writer.marks.len() > 12 {
        writer.marks.clear();
    }
    writer.marks.push(address);
}

/// Starts one engine at a marked place.
pub fn engine(writer: &mut Writer) {
    let word = writer.mark() | writer.low_bits();
    let side = writer.random.pick(&Side::BOTH);
    writer.write_start(side, 0);
    writer.write_next(side, word);
    writer.write_start(side, 5);
    writer.say("state");
}
