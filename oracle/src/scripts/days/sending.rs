//! Sending along a chain, its descriptors granted again by the grant call.

use super::{grant, send};
use crate::scripts::layout::Place;
use crate::scripts::polling;
use crate::scripts::sending::{start, started_chain};
use crate::scripts::writer::Writer;
use crate::side::Side;

pub fn along_a_chain(writer: &mut Writer) {
    let length = match writer.random.below(3) {
        0 => writer.random.between(16, 1_024) * 4,
        1 => writer.random.between(512, 16_384) * 4,
        _ => writer.random.between(400, 2_000) * 4,
    };
    let chain = started_chain(writer, length);
    for _ in 0..writer.random.between(8, 60) {
        step(writer, &chain);
    }
}

fn step(writer: &mut Writer, chain: &[Place]) {
    if !writer.console.bench.sender.running && !writer.random.once_in(4) {
        let first = writer.random.pick(chain).address;
        start(writer, first);
    }
    match writer.random.below(13) {
        0..=5 => {
            let lost = polling::is_8(&send(writer));
            if lost && writer.random.once_in(2) {
                polling::go_on(writer, Side::Sending);
            }
        }
        6 | 7 => {
            // What is sent next, most often.
            let place = writer.console.bench.sender.place;
            writer.say(format!("grant {place:x}"));
        }
        8 => grant(writer),
        9 => writer.register_write(),
        12 => {
            let value = writer.time_out();
            writer.say(format!("write 48 {value:x}"));
        }
        10 => {
            writer.frame();
        }
        _ => {
            let value = writer.start_value();
            writer.say(format!("write 30 {value:x}"));
            let word = chain[0].address | writer.low_bits();
            writer.say(format!("write 3c {word:x}"));
        }
    }
}
