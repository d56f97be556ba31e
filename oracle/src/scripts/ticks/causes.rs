//! Ticks that clear the count, by each cause.

use super::counting;
use crate::scripts::layout::{Place, VALID};
use crate::scripts::writer::Writer;

/// A tick that finds nothing to wait for, and a look; often one more when there is something again.
fn clear(writer: &mut Writer, chain: &[Place]) {
    if writer.random.once_in(4) {
        writer.say("counters");
    }
    writer.say("tick");
    writer.say("counters");
    match writer.random.below(4) {
        0 => {
            writer.say("state");
            writer.say("read 8");
        }
        1 => {
            counting::up(writer, chain);
            writer.say("counters");
        }
        _ => {}
    }
}

pub fn stopped(writer: &mut Writer, chain: &[Place]) {
    counting::up(writer, chain);
    let value = writer.random.pick(&[0, 4, 0x00FF_FF24]);
    writer.say(format!("write 30 {value:x}"));
    clear(writer, chain);
}

pub fn returned(writer: &mut Writer, chain: &[Place]) {
    let place = counting::up(writer, chain);
    let status = match writer.random.below(2) {
        0 => 0,
        _ => writer.random.word() & !VALID,
    };
    writer.poke_word(place.wrapping_add(12), status);
    clear(writer, chain);
}

/// Stopped, and started at a place of which not all bytes are in the window; between two ticks that
/// leaves the count.
pub fn outside(writer: &mut Writer, chain: &[Place]) {
    counting::up(writer, chain);
    let (base, end) = (writer.base(), writer.end());
    let place = match writer.random.below(6) {
        0 => end,
        1 => end.wrapping_sub(4),
        2 => end.wrapping_sub(12),
        3 => base.wrapping_sub(4),
        4 => base.wrapping_sub(16),
        _ => base.wrapping_add(0x8000_0000),
    };
    writer.say("write 30 0");
    let word = place | writer.low_bits();
    writer.say(format!("write 3c {word:x}"));
    writer.say("write 30 5");
    clear(writer, chain);
}
