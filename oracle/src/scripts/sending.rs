//! Sending along chains: sound ones, ending ones, closed ones and faulty ones.

use super::layout::{Place, NEXT_ENABLE, VALID};
use super::polling;
use super::writer::Writer;
use crate::side::Side;

const COUNTS: [u32; 22] = [
    0, 1, 12, 13, 13, 13, 13, 14, 15, 59, 60, 61, 62, 64, 100, 1_513, 1_514, 1_515, 1_516, 1_518,
    4_094, 4_095,
];

pub fn along_a_chain(writer: &mut Writer) {
    let length = match writer.random.below(3) {
        0 => writer.random.between(16, 1_024) * 4,
        1 => 65_536,
        _ => writer.random.between(512, 16_384) * 4,
    };
    let chain = started_chain(writer, length);
    writer.observe();
    for _ in 0..writer.random.between(30, 90) {
        step(writer, &chain);
    }
    writer.observe();
}

/// A new window of this length with a chain in it, from whose first place sending runs.
pub fn started_chain(writer: &mut Writer, length: usize) -> Vec<Place> {
    writer.new_bench(length as u32);
    let count = writer.random.between(1, (length / 40).min(12));
    let chain = chain(writer, count);
    for place in &chain {
        place.write(writer);
        writer.marks.push(place.address);
    }
    start(writer, chain[0].address);
    chain
}

/// Descriptors from the window's start or up to its end, buffers anywhere behind or before.
fn chain(writer: &mut Writer, count: usize) -> Vec<Place> {
    let at_end = writer.random.once_in(2);
    let table = match at_end {
        true => writer.end().wrapping_sub(16 * count as u32),
        false => writer.base(),
    };
    let closed = writer.random.once_in(3);
    (0..count)
        .map(|place| {
            let address = table.wrapping_add(16 * place as u32);
            let next = table.wrapping_add(16 * ((place + 1) % count) as u32);
            let last = place + 1 == count;
            let size = size(writer);
            let mut control = size;
            if closed || !last {
                control |= NEXT_ENABLE;
            }
            if writer.random.once_in(4) {
                control |= writer.random.word() & !(NEXT_ENABLE | 0xFFF);
            }
            let status = match writer.random.below(6) {
                0 => writer.random.word() & !VALID,
                1 => writer.random.word() | VALID,
                _ => VALID,
            };
            Place {
                address,
                control,
                start: start_address(writer, address, size, count, at_end),
                next: next | writer.low_bits(),
                status,
            }
        })
        .collect()
}

/// Mostly counts that are sent, so that chains go on.
fn size(writer: &mut Writer) -> u32 {
    match writer.random.below(6) {
        0 => writer.random.pick(&COUNTS),
        1 => writer.random.between(14, 1_514) as u32,
        2 => writer.random.pick(&[14, 59, 60, 61, 1_514]),
        _ => writer.random.between(14, 120) as u32,
    }
}

/// Mostly a buffer apart from the descriptors; else one at an edge, over a descriptor, or faulty.
fn start_address(writer: &mut Writer, own: u32, size: u32, count: usize, at_end: bool) -> u32 {
    let (base, end) = (writer.base(), writer.end());
    let table = 16 * count as u32;
    let free = writer.length() - table;
    match writer.random.below(24) {
        0 => end.wrapping_sub(size.next_multiple_of(4)),
        1 => end.wrapping_sub(size & !3),
        2 => base.wrapping_sub(4),
        3 => own.wrapping_add(16),
        4 => own.wrapping_add(12),
        5 => own.wrapping_sub(size.next_multiple_of(4)),
        6 => own.wrapping_sub(size & !3),
        7 => own.wrapping_add(16 * writer.random.below(4) as u32),
        8 => writer.address(),
        _ => {
            let first = if at_end { 0 } else { table };
            let slack = free.saturating_sub(size) / 4;
            let place = writer.random.below(slack as usize + 1) as u32 * 4;
            base.wrapping_add(first + place)
        }
    }
}

/// Starts sending at this place, with polling or without.
pub fn start(writer: &mut Writer, first: u32) {
    let word = first | writer.low_bits();
    writer.say(format!("write 3c {word:x}"));
    writer.say("write 30 5");
}

fn step(writer: &mut Writer, chain: &[Place]) {
    if !writer.console.bench.sender.running && !writer.random.once_in(3) {
        let first = writer.random.pick(chain).address;
        grant_again(writer, chain);
        start(writer, first);
    }
    match writer.random.below(20) {
        0..=4 => {
            let room = match writer.random.below(4) {
                0 => writer.room(),
                _ => 1_518,
            };
            let place = writer.console.bench.sender.place;
            let lost = polling::is_8(&writer.say(format!("send {room}")));
            writer.say("state");
            writer.say(format!("peek {place:x} 16"));
            if lost && writer.random.once_in(2) {
                polling::go_on(writer, Side::Sending);
            }
        }
        5..=8 => writer.run_at_boundary(),
        9 => {
            let (allowance, room) = (writer.allowance(), writer.room());
            writer.say(format!("run {allowance} {room}"));
            writer.observe();
        }
        10 | 11 => grant_again(writer, chain),
        12 => {
            for place in chain {
                place.write(writer);
            }
        }
        13 => {
            let value = writer.start_value();
            writer.say(format!("write 30 {value:x}"));
            let word = chain[0].address | writer.low_bits();
            writer.say(format!("write 3c {word:x}"));
            writer.say("state");
        }
        14 => writer.lend_wrong(),
        15 => {
            writer.say("read 8");
            writer.say("write 8 80800000");
            writer.say("read 8");
        }
        16 => writer.any(),
        17 => polling::change_next_word(writer, Side::Sending, chain),
        18 => polling::start_again(writer, Side::Sending),
        _ => writer.observe(),
    }
}

/// Gives returned descriptors back to the DMA, by the grant call or by the firmware's own write.
fn grant_again(writer: &mut Writer, chain: &[Place]) {
    for place in chain {
        let status = place.address.wrapping_add(12);
        if writer.word(status) & VALID != 0 && !writer.random.once_in(8) {
            continue;
        }
        if writer.random.once_in(4) {
            writer.say(format!("grant {:x}", place.address));
        } else {
            writer.poke_word(status, VALID);
        }
    }
}
