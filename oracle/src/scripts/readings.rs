//! Readings of descriptors made up for it: every length, edge and alignment.

use super::layout::{Place, VALID};
use super::writer::Writer;

const LENGTHS: [u32; 10] = [0, 1, 63, 64, 65, 1_517, 1_518, 1_519, 2_046, 2_047];

pub fn at_the_limits(writer: &mut Writer) {
    let words = writer.random.between(16, 1_200);
    writer.new_bench(4 * words as u32);
    for _ in 0..writer.random.between(10, 40) {
        let place = made_up(writer);
        place.write(writer);
        writer.say(format!("show {:x}", place.address));
        if writer.random.once_in(6) {
            writer.marks = vec![place.address];
            writer.lend_wrong();
        }
    }
    writer.observe();
}

/// A descriptor most of whose words would be shown.
fn made_up(writer: &mut Writer) -> Place {
    let length = match writer.random.below(3) {
        0 => writer.random.pick(&LENGTHS),
        _ => writer.random.between(64, 200) as u32,
    };
    let end = writer.end();
    let start = match writer.random.below(8) {
        0 => end.wrapping_sub(length.next_multiple_of(4)),
        1 => end.wrapping_sub(length & !3),
        2 => end.wrapping_sub(length.saturating_sub(4).next_multiple_of(4)),
        3 => writer.base().wrapping_sub(4),
        4 => writer.base() | writer.random.between(1, 3) as u32,
        _ => writer.base(),
    };
    let mut status = length;
    if writer.random.once_in(4) {
        status |= writer.random.word() & !(VALID | 0x7FF);
    }
    if writer.random.once_in(6) {
        status |= VALID;
    }
    let room = writer.length() as usize - 16;
    let mut address = writer.random.below(room / 4 + 1) as u32 * 4;
    if writer.random.once_in(4) {
        address = (address + writer.random.between(1, 3) as u32).min(room as u32);
    }
    Place {
        address: writer.base().wrapping_add(address),
        control: writer.random.word(),
        start,
        next: writer.random.word(),
        status,
    }
}
