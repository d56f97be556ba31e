//! Sound rings damaged in one way each, then asked about and used.

use super::layout::{self, Place, NEXT_ENABLE, POLLING, VALID};
use super::writer::Writer;

pub fn of_a_ring(writer: &mut Writer) {
    let count = match writer.random.below(3) {
        0 => writer.random.between(1, 34),
        _ => writer.random.between(1, 4),
    };
    let ring = layout::sound_ring(writer, count);
    ask(writer, &ring);
    for _ in 0..writer.random.between(4, 16) {
        let mut broken = ring.clone();
        let chosen = writer.random.below(count);
        damage(writer, &ring, &mut broken[chosen]);
        broken[chosen].write(writer);
        ask(writer, &ring);
        if writer.random.once_in(3) {
            use_it(writer, &broken);
            for place in &ring {
                place.write(writer);
            }
        }
        ring[chosen].write(writer);
        writer.say(format!("ring {count} {:x}", ring[0].address));
    }
}

/// The ring's own number, those beside it and those at the limits, from several addresses.
fn ask(writer: &mut Writer, ring: &[Place]) {
    let count = ring.len();
    let first = ring[0].address;
    let other = writer.random.pick(ring).address;
    writer.say(format!("ring {count} {first:x}"));
    writer.say(format!("ring {count} {other:x}"));
    match writer.random.below(6) {
        0 => {
            writer.say(format!("ring {} {first:x}", count - 1));
            writer.say(format!("ring {} {first:x}", count + 1));
        }
        1 => {
            writer.say(format!("ring {} {first:x}", 2 * count));
            writer.say(format!("ring 0 {first:x}"));
            writer.say(format!("ring 33 {first:x}"));
        }
        2 => {
            let low_bits = writer.random.between(1, 3) as u32;
            writer.say(format!("ring {count} {:x}", first | low_bits));
        }
        3 => {
            let length = writer.length() as usize;
            let wrong = writer.random.pick(&[0, length - 4, length + 4]);
            writer.say(format!("lend {wrong}"));
            writer.say(format!("ring {count} {first:x}"));
            writer.say(format!("lend {length}"));
        }
        4 => {
            let address = writer.address();
            writer.say(format!("ring {count} {address:x}"));
        }
        _ => {}
    }
}

/// Changes one word of a descriptor; some changes are harmless on purpose.
pub fn damage(writer: &mut Writer, ring: &[Place], place: &mut Place) {
    let other = writer.random.pick(ring);
    let (base, end) = (writer.base(), writer.end());
    let size = place.count();
    let fitting = size.next_multiple_of(4);
    // Where the next word leads elsewhere, its low bits stay, so that it is the place that counts.
    let low_bits = place.next & 3;
    match writer.random.below(24) {
        0 => place.control &= !NEXT_ENABLE,
        1 => place.control = place.control & !0xFFF | 1_517,
        2 => place.control &= !0xFFF,
        3 => place.control |= 0xFFF,
        4 => place.control = place.control & !0xFFF | 1_518,
        5 => place.start |= writer.random.between(1, 3) as u32,
        6 => place.start = end.wrapping_sub(fitting),
        7 => place.start = end.wrapping_sub(fitting).wrapping_add(4),
        8 => place.start = base.wrapping_sub(4),
        9 => place.start = base,
        10 => place.start = other.start,
        11 => place.start = other.start.wrapping_add(other.count().next_multiple_of(4)),
        12 => place.start = other.start.wrapping_add(other.count() & !3),
        13 => place.start = other.start.wrapping_sub(fitting),
        14 => place.start = other.address,
        15 => place.start = other.address.wrapping_sub(fitting - 4),
        16 => place.start = other.address.wrapping_add(16),
        17 => place.next = other.address | low_bits,
        18 => place.next = place.address | low_bits,
        19 => place.next = end.wrapping_sub(writer.random.pick(&[0, 4, 12, 16])) | low_bits,
        20 => place.next = place.next.wrapping_add(writer.random.pick(&[4, 8, 12])),
        21 => place.next &= !POLLING,
        22 => place.next ^= writer.random.between(1, 3) as u32,
        _ => place.status = writer.random.word(),
    }
}

/// Receives along the damaged ring, everything granted.
fn use_it(writer: &mut Writer, ring: &[Place]) {
    for place in ring {
        writer.poke_word(place.address.wrapping_add(12), VALID);
    }
    writer.say("write 10 0");
    let first = ring[0].address | writer.low_bits();
    writer.say(format!("write 1c {first:x}"));
    writer.say("write 400 80000000");
    writer.say("write 10 5");
    if writer.random.once_in(2) {
        writer.burst_of(ring.len() + 2);
    } else {
        // Once round a short ring, and twice at a place that is not granted again.
        for _ in 0..ring.len().min(4) + 2 {
            writer.frame();
            writer.say("state");
        }
    }
    writer.observe();
}
