//! Bursts along a chain of small buffers, long enough for every frame of the longest burst.

use crate::scripts::layout::{Place, NEXT_ENABLE, VALID};
use crate::scripts::receiving;
use crate::scripts::writer::Writer;

pub fn along_a_chain(writer: &mut Writer) {
    let count = match writer.random.below(4) {
        0 => writer.random.between(60, 70),
        1 => writer.random.between(1, 3),
        _ => writer.random.between(3, 16),
    };
    let fitting = 60_000 / count / 4 * 4;
    let size = writer.random.pick(&[72, 72, 80, 120, 1_520]).min(fitting);
    let slack = 4 * writer.random.below(20);
    writer.new_bench((count * (16 + size) + slack) as u32);
    writer.set_filter();
    for _ in 0..writer.random.between(4, 12) {
        let mut chain = chain(writer, count, size as u32);
        if !writer.random.once_in(4) {
            // Near the front it is met by short bursts too.
            let reach = writer.random.pick(&[4, count]).min(count);
            let chosen = writer.random.below(reach);
            spoil(writer, &mut chain, chosen);
        }
        let table: Vec<u8> = chain.iter().flat_map(Place::bytes).collect();
        writer.poke(chain[0].address, &table);
        writer.say("write 10 0");
        receiving::start(writer, chain[0].address);
        writer.marks = chain.iter().map(|place| place.address).collect();
        burst(writer, count);
        match writer.random.below(7) {
            0 => writer.lend_wrong(),
            1 => writer.observe(),
            2 => writer.any(),
            3 => {
                writer.change_filter();
                burst(writer, count);
            }
            _ => burst(writer, count),
        }
    }
    writer.observe();
}

/// A burst of about the chain's length, or of any.
fn burst(writer: &mut Writer, count: usize) {
    if writer.random.once_in(2) {
        writer.burst_and_look();
    } else {
        let pairs = count + writer.random.below(5);
        writer.burst_of_and_look(pairs.min(64));
    }
}

/// Descriptors from the window's start on, all granted, and their buffers behind them; the last one
/// goes back to the first or ends the chain.
fn chain(writer: &mut Writer, count: usize, size: u32) -> Vec<Place> {
    let table = writer.base();
    let buffers = table.wrapping_add(16 * count as u32);
    let closed = writer.random.once_in(2);
    (0..count)
        .map(|place| {
            let last = place + 1 == count;
            let next_enable = if closed || !last { NEXT_ENABLE } else { 0 };
            Place {
                address: table.wrapping_add(16 * place as u32),
                control: size | next_enable,
                start: buffers.wrapping_add(size * place as u32),
                next: table.wrapping_add(16 * ((place + 1) % count) as u32) | writer.low_bits(),
                // Other bits beside VALID are gone with the delivery.
                status: match writer.random.below(4) {
                    0 => writer.random.word() | VALID,
                    _ => VALID,
                },
            }
        })
        .collect()
}

/// Makes one descriptor of the chain its end, a fault, or a loss.
fn spoil(writer: &mut Writer, chain: &mut [Place], chosen: usize) {
    let (base, end) = (writer.base(), writer.end());
    let other = writer.random.pick(chain);
    let place = &mut chain[chosen];
    let low_bits = place.next & 3;
    match writer.random.below(12) {
        0 | 1 => place.control &= !NEXT_ENABLE,
        2 => place.status = writer.random.pick(&[0, 64, !VALID]),
        3 => place.control = place.control & !0xFFF | writer.random.pick(&[0, 63, 64, 68]),
        4 => place.start |= writer.random.between(1, 3) as u32,
        5 => place.start = end.wrapping_sub(writer.random.pick(&[60, 64, 68])),
        6 => place.start = base.wrapping_sub(4),
        7 => {
            let away = writer.random.pick(&[0, 12, 16, 60, 64, 68]);
            place.start = place.address.wrapping_add(16).wrapping_sub(away);
        }
        // Not in the window, or not all of it.
        8 | 9 => place.next = end.wrapping_sub(writer.random.pick(&[0, 4, 12])) | low_bits,
        10 => place.next = other.address | low_bits,
        // Over another descriptor, which the burst may come to later.
        _ => place.start = other.address,
    }
}
