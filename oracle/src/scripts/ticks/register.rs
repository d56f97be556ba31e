//! The time-out register written while there is a count, and ticks while it is 0.

use super::{counting, waits};
use crate::scripts::layout::Place;
use crate::scripts::writer::Writer;

/// A value of which the sixteen bits are 0 though it is not.
fn masked_zero(writer: &mut Writer) -> u32 {
    writer
        .random
        .pick(&[0x1_0000, 0x1_0000, 0x8000_0000, 0xFFFF_0000])
}

pub fn written(writer: &mut Writer, chain: &[Place]) {
    counting::up(writer, chain);
    let count = writer.console.bench.ticks;
    let value = match writer.random.below(11) {
        0 | 1 | 8 => 0,
        2 | 3 | 9 => masked_zero(writer),
        // What the next tick is above, at once or not.
        4 => count.max(1),
        5 => count.saturating_sub(1).max(1),
        6 => count + writer.random.between(1, 3) as u32,
        7 => writer.random.pick(&[0x100, 0x200, 0xFF00, 0x8000]),
        _ => writer.time_out() | 1,
    };
    writer.write_time_out(value);
    if writer.random.once_in(3) {
        writer.say("read 48");
    }
    match writer.random.below(4) {
        // Another value before the next tick: what 0 has cleared stays cleared.
        0 => {
            writer.write_time_out(5);
            writer.say("tick");
        }
        1 => {
            writer.say("counters");
            writer.say("read 8");
            writer.say("tick");
            writer.say("counters");
            writer.say("read 8");
        }
        _ => {}
    }
    writer.say("counters");
}

pub fn zero(writer: &mut Writer, chain: &[Place]) {
    waits(writer, chain);
    let value = match writer.random.below(2) {
        0 => 0,
        _ => masked_zero(writer),
    };
    writer.write_time_out(value);
    writer.say("write 8 80000");
    for _ in 0..writer.random.between(1, 4) {
        writer.say("tick");
        let look = writer
            .random
            .pick(&["counters", "read 8", "counters", "line"]);
        writer.say(look);
    }
}
