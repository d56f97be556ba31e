//! A receiving bench with a ring, sound or with one fault, the firmware granting in order or not.

use super::{grant, send};
use crate::scripts::damage;
use crate::scripts::layout::{self, Place, VALID};
use crate::scripts::polling;
use crate::scripts::receiving::start;
use crate::scripts::writer::Writer;
use crate::side::Side;

pub fn on_a_ring(writer: &mut Writer) {
    let count = match writer.random.below(12) {
        0 => writer.random.between(6, 32),
        _ => writer.random.between(1, 5),
    };
    let mut ring = layout::sound_ring(writer, count);
    if !writer.random.once_in(3) {
        polling::mix(writer, &mut ring);
    }
    if writer.random.once_in(3) {
        let chosen = writer.random.below(count);
        let mut broken = ring[chosen];
        damage::damage(writer, &ring, &mut broken);
        ring[chosen] = broken;
    }
    for place in &mut ring {
        if writer.random.once_in(3) {
            place.status |= VALID;
        }
        place.write(writer);
    }
    writer.set_filter();
    start(writer, ring[0].address);
    let mut granted = 0;
    for _ in 0..writer.random.between(8, 40) {
        step(writer, &ring, &mut granted);
    }
}

/// One event, or a few. `granted` counts the grants made in ring order.
fn step(writer: &mut Writer, ring: &[Place], granted: &mut usize) {
    if !writer.console.bench.receiver.running && !writer.random.once_in(4) {
        let place = writer.random.pick(ring).address;
        start(writer, place);
    }
    match writer.random.below(19) {
        0..=3 => {
            writer.frame();
        }
        // To another station.
        18 => {
            let frame = crate::check::closed(&[0x0A; 60]);
            writer.say(format!("frame {}", crate::hex::write(&frame)));
        }
        4..=7 => {
            let length = writer.random.pick(&[64, 64, 65, 90, 400, 1_518]);
            let frame = writer.passing_frame(length);
            let answer = writer.say(format!("frame {}", crate::hex::write(&frame)));
            let lost = polling::is_8(&answer);
            if lost && writer.random.once_in(2) && polling::go_on(writer, Side::Receiving) {
                *granted += 1;
            }
        }
        8..=12 => {
            let address = ring[*granted % ring.len()].address;
            if writer.say(format!("grant {address:x}")) == "grant 0" {
                *granted += 1;
            }
        }
        13 => grant(writer),
        14 => writer.register_write(),
        15 => writer.change_filter(),
        16 => {
            send(writer);
        }
        _ => {
            let value = writer.start_value();
            writer.say(format!("write 10 {value:x}"));
            let word = writer.mark() | writer.low_bits();
            writer.say(format!("write 1c {word:x}"));
        }
    }
}
