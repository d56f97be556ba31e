//! Bursts on a sound ring with few grants or many, one descriptor damaged at times.

use crate::scripts::layout::{self, Place, VALID};
use crate::scripts::writer::Writer;
use crate::scripts::{damage, polling, receiving};

pub fn on_a_ring(writer: &mut Writer) {
    let count = match writer.random.below(4) {
        0 => writer.random.pick(&[1, 2, 32, 42]),
        _ => writer.random.between(1, 8),
    };
    let mut ring = layout::sound_ring(writer, count);
    if writer.random.once_in(2) {
        polling::mix(writer, &mut ring);
    }
    writer.set_filter();
    receiving::start(writer, ring[0].address);
    let mut granted = 0;
    for _ in 0..writer.random.between(8, 24) {
        match writer.random.below(11) {
            // A short burst seldom comes far along a long ring.
            0 | 1 if count <= 8 => {
                damaged(writer, &ring);
                granted = 0;
            }
            2 => writer.lend_wrong(),
            3 => {
                writer.say("write 8 ffffffff");
                writer.burst_and_look();
            }
            4 => writer.any(),
            5 => writer.observe(),
            6 => {
                writer.change_filter();
                writer.burst_and_look();
            }
            _ => {
                grant(writer, &ring, &mut granted);
                writer.burst_and_look();
            }
        }
        if !writer.console.bench.receiver.running && !writer.random.once_in(6) {
            let place = writer.console.bench.receiver.place;
            receiving::start(writer, place);
        }
    }
    writer.observe();
}

/// Some grants in ring order, fewer or more than a burst's frames.
fn grant(writer: &mut Writer, ring: &[Place], granted: &mut usize) {
    for _ in 0..writer.random.below(ring.len().min(8) + 1) {
        let address = ring[*granted % ring.len()].address;
        if writer.say(format!("grant {address:x}")) == "grant 0" {
            *granted += 1;
        }
    }
}

/// All granted but one damaged, so that a burst comes to it in its middle; then the ring is laid out
/// anew and receiving started at its front.
fn damaged(writer: &mut Writer, ring: &[Place]) {
    for place in ring {
        writer.poke_word(place.address.wrapping_add(12), VALID);
    }
    let chosen = writer.random.below(ring.len());
    let mut broken = ring[chosen];
    broken.status = VALID;
    damage::damage(writer, ring, &mut broken);
    broken.write(writer);
    writer.burst_and_look();
    if writer.random.once_in(2) {
        writer.burst_and_look();
    }
    for place in ring {
        place.write(writer);
    }
    writer.say("write 10 0");
    receiving::start(writer, ring[0].address);
}
