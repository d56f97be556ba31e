//! Sends and ticks that are refused while there is a count: they leave it.

use super::counting;
use crate::scripts::layout::{Place, VALID};
use crate::scripts::writer::Writer;

/// A send, or a step run of one, refused by any of its numbers.
pub fn send(writer: &mut Writer, chain: &[Place]) {
    let place = counting::up(writer, chain);
    let mut room = 1_518;
    match writer.random.below(8) {
        // 3
        0 => {
            let value = writer.random.pick(&[0, 4]);
            writer.say(format!("write 30 {value:x}"));
        }
        // 7, by the buffer and by the descriptor
        1 => {
            let start = match writer.random.below(2) {
                0 => place | 1,
                _ => writer.end(),
            };
            writer.poke_word(place.wrapping_add(4), start);
        }
        2 => {
            let word = writer.end().wrapping_sub(8) | writer.low_bits();
            writer.say("write 30 0");
            writer.say(format!("write 3c {word:x}"));
            writer.say("write 30 5");
        }
        // 8
        3 | 4 => {
            let status = writer.random.word() & !VALID;
            writer.poke_word(place.wrapping_add(12), status);
        }
        // 9
        5 => room = writer.random.pick(&[0, 1, 64, 1_517]),
        // 11
        6 => {
            let length = writer.length() + 4;
            writer.say(format!("lend {length}"));
        }
        // 12
        _ => {
            let count = writer.random.pick(&[0, 1, 13]);
            writer.poke_word(place, count);
        }
    }
    match writer.random.below(3) {
        0 => writer.say(format!("run 2 {room}")),
        _ => writer.say(format!("send {room}")),
    };
    writer.say("counters");
    let length = writer.length();
    writer.say(format!("lend {length}"));
    if writer.random.once_in(2) {
        writer.say("tick");
        writer.say("counters");
    }
}

/// Ticks that are lent another length, and the next one that is not.
pub fn tick(writer: &mut Writer, chain: &[Place]) {
    if !writer.random.once_in(4) {
        counting::up(writer, chain);
    }
    let length = writer.length() as usize;
    let wrong = match writer.random.below(5) {
        0 => 0,
        1 => length - 1,
        2 => length + 1,
        3 => length - 4,
        _ => length + 4,
    };
    writer.say(format!("lend {wrong}"));
    for _ in 0..writer.random.between(2, 6) {
        writer.say("tick");
        if writer.random.once_in(2) {
            writer.say("counters");
        }
    }
    writer.say("counters");
    writer.say(format!("lend {length}"));
    writer.say("tick");
    writer.say("counters");
}
