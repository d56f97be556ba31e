//! Days of a receiving bench with a sound ring, the firmware granting in order or not.

use super::layout::{self, Place};
use super::polling;
use super::writer::Writer;
use crate::side::Side;

pub fn on_a_sound_ring(writer: &mut Writer) {
    let count = match writer.random.below(4) {
        // 33 and 42 fit into a window but are too many for a sound ring.
        0 => writer.random.pick(&[1, 2, 31, 32, 33, 42]),
        1 => writer.random.between(1, 32),
        _ => writer.random.between(1, 5),
    };
    let mut ring = layout::sound_ring(writer, count);
    let first = ring[0].address;
    writer.say(format!("ring {count} {first:x}"));
    if writer.random.once_in(2) {
        polling::mix(writer, &mut ring);
        writer.say(format!("ring {count} {first:x}"));
    }
    writer.set_filter();
    start(writer, first);
    writer.observe();
    let mut granted = 0;
    for _ in 0..writer.random.between(20, 120) {
        step(writer, &ring, &mut granted);
    }
    writer.observe();
    writer.say(format!("ring {count} {first:x}"));
}

/// Starts receiving at this place, with polling or without.
pub fn start(writer: &mut Writer, first: u32) {
    let low_bits = writer.low_bits();
    start_by(writer, first | low_bits);
}

/// Starts receiving by this word of its register.
pub fn start_by(writer: &mut Writer, word: u32) {
    writer.say(format!("write 1c {word:x}"));
    let extra = match writer.random.below(3) {
        0 => writer.random.word() & !5,
        _ => 0,
    };
    writer.say(format!("write 10 {:x}", 5 | extra));
}

/// One step of a day. `granted` counts the grants made in ring order.
fn step(writer: &mut Writer, ring: &[Place], granted: &mut usize) {
    if !writer.console.bench.receiver.running && writer.random.once_in(2) {
        let place = writer.console.bench.receiver.place;
        start(writer, place);
    }
    match writer.random.below(30) {
        0..=7 => {
            let place = writer.console.bench.receiver.place;
            let lost = polling::is_8(&writer.frame());
            look_at(writer, place);
            if lost && writer.random.once_in(3) && polling::go_on(writer, Side::Receiving) {
                *granted += 1;
            }
        }
        8..=14 => {
            let address = ring[*granted % ring.len()].address;
            if grant(writer, address) {
                *granted += 1;
            }
        }
        15 => {
            let address = writer.random.pick(ring).address;
            writer.say(format!("show {address:x}"));
        }
        16 => writer.lend_wrong(),
        17 => {
            // Firmware may write a buffer at any time.
            let place = writer.random.pick(ring);
            let offset = writer.random.below(1_500) as u32;
            let bytes = writer.random.bytes(16);
            writer.poke(place.start.wrapping_add(offset), &bytes);
        }
        18 => {
            let clear = writer.random.pick(&[0x8000, 0x20, 0x80, u32::MAX, 0x8020]);
            writer.say("read 8");
            writer.say(format!("write 8 {clear:x}"));
            writer.say("read 8");
        }
        19 => {
            let enable = writer
                .random
                .pick(&[0x8000, 0x20, 0x80, 0, u32::MAX, 0x1_0000]);
            writer.say(format!("write 4 {enable:x}"));
            writer.say("line");
        }
        20 if writer.random.once_in(3) => restart(writer, ring),
        21 if writer.random.once_in(2) => end_of_chain(writer, ring),
        22 => writer.any(),
        23 | 24 => writer.burst_and_look(),
        25 | 26 => writer.change_filter(),
        // A sound ring stays one.
        27 if ring.iter().any(|place| place.next & layout::POLLING == 0) => {
            polling::change_next_word(writer, Side::Receiving, ring)
        }
        28 => polling::start_again(writer, Side::Receiving),
        _ => writer.observe(),
    }
}

/// Grants a descriptor, by the call and at times by the firmware's own write, which may leave any bits
/// beside VALID; and often looks at what it left. Gives whether it was returned before and is granted
/// now.
pub fn grant(writer: &mut Writer, address: u32) -> bool {
    let granted = |writer: &Writer| writer.word(address.wrapping_add(12)) & layout::VALID != 0;
    let before = granted(writer);
    match writer.random.below(8) {
        0 => writer.grant_by_poke(address),
        _ => {
            writer.say(format!("grant {address:x}"));
        }
    }
    if writer.random.once_in(3) {
        writer.peek_status(address);
    }
    !before && granted(writer)
}

/// After a frame: the status word at least, or the descriptor, the frame shown, and the memory's
/// check.
pub fn look_at(writer: &mut Writer, place: u32) {
    writer.say("state");
    if writer.random.once_in(2) {
        writer.say(format!("peek {place:x} 16"));
        writer.say(format!("show {place:x}"));
        writer.say("check");
    } else {
        writer.peek_status(place);
    }
    if writer.random.once_in(8) {
        let start = writer.word(place.wrapping_add(4));
        writer.say(format!("peek {start:x} 1520"));
    }
}

/// Stops the engine and starts it again, at another place or at the old one.
fn restart(writer: &mut Writer, ring: &[Place]) {
    let value = writer.start_value();
    writer.say(format!("write 10 {value:x}"));
    let word = writer.random.pick(ring).address | writer.low_bits();
    writer.say(format!("write 1c {word:x}"));
    writer.say("state");
    writer.frame();
    writer.say("write 10 5");
    writer.say("state");
}

/// Takes next-enable away where the engine stands, or the count, or the buffer.
fn end_of_chain(writer: &mut Writer, ring: &[Place]) {
    let place = writer.console.bench.receiver.place;
    let Some(found) = ring.iter().find(|entry| entry.address == place) else {
        return;
    };
    let mut changed = *found;
    let end = writer.end();
    match writer.random.below(7) {
        0 | 1 => changed.control &= !layout::NEXT_ENABLE,
        2 => changed.control -= changed.count() - writer.random.pick(&[0, 63, 64, 100]),
        3 => changed.start |= writer.random.between(1, 3) as u32,
        // A buffer over the own descriptor, or only up to it, or from its end on.
        4 => {
            let away = writer.random.pick(&[4, 16, 60, 64, 68, 80]);
            changed.start = place.wrapping_add(16).wrapping_sub(away);
        }
        5 => changed.start = end.wrapping_sub(writer.random.pick(&[60, 64, 68, 1_516, 1_520])),
        // A buffer over another descriptor of the ring.
        _ => changed.start = writer.random.pick(ring).address,
    }
    changed.status = writer.random.pick(&[0, layout::VALID, layout::VALID]);
    changed.write(writer);
    writer.frame();
    look_at(writer, place);
    if writer.random.once_in(2) {
        writer.frame();
        writer.observe();
    }
    for entry in ring {
        entry.write(writer);
    }
    let word = place | writer.low_bits();
    writer.say(format!("write 1c {word:x}"));
    writer.say("write 10 5");
    writer.say("state");
}
