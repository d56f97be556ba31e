//! Both engines on short chains with few grants, so that most frames and sends come to a descriptor
//! that is not granted; the firmware changes low bits all the time.

use super::{change_next_word, go_on, is_8, start_again};
use crate::scripts::layout::{Place, NEXT_ENABLE, VALID};
use crate::scripts::writer::Writer;
use crate::side::Side;

/// The bytes of each buffer: enough for a short frame, and not too many to be sent.
pub const SIZE: u32 = 80;

pub fn on_both_engines(writer: &mut Writer) {
    let counts = [(); 2].map(|()| writer.random.between(1, 4));
    let all = counts[0] + counts[1];
    let slack = 4 * writer.random.below(8) as u32;
    writer.new_bench(all as u32 * (16 + SIZE) + slack);
    writer.set_filter();
    let table = chains(writer, counts);
    let (receiving, sending) = table.split_at(counts[0]);
    for place in &table {
        place.write(writer);
        writer.marks.push(place.address);
    }
    for _ in 0..writer.random.between(30, 90) {
        let side = writer.random.pick(&Side::BOTH);
        // Now and then both engines work on one chain.
        let chain = match (side, writer.random.once_in(12)) {
            (Side::Receiving, false) | (Side::Sending, true) => receiving,
            _ => sending,
        };
        step(writer, side, chain);
    }
    writer.observe();
}

/// Two chains of these lengths one behind the other, their buffers behind both. Each goes round, but
/// that one descriptor in eight ends it.
pub fn chains(writer: &mut Writer, counts: [usize; 2]) -> Vec<Place> {
    let base = writer.base();
    let address = |place: usize| base.wrapping_add(16 * place as u32);
    let buffers = address(counts[0] + counts[1]);
    let mut table = Vec::new();
    for (first, count) in [(0, counts[0]), (counts[0], counts[1])] {
        for place in 0..count {
            let own = first + place;
            let next = address(first + (place + 1) % count);
            let ends = writer.random.once_in(8);
            table.push(Place {
                address: address(own),
                control: SIZE | if ends { 0 } else { NEXT_ENABLE },
                start: buffers.wrapping_add(SIZE * own as u32),
                next: next | writer.low_bits(),
                status: writer.random.pick(&[0, 64, VALID]),
            });
        }
    }
    table
}

/// One step of an engine on a chain.
fn step(writer: &mut Writer, side: Side, chain: &[Place]) {
    if !side.of(&writer.console.bench).running && !writer.random.once_in(4) {
        start(writer, side, chain);
    }
    let place = side.of(&writer.console.bench).place;
    match writer.random.below(18) {
        0..=5 => call(writer, side),
        6 | 7 => {
            writer.say(format!("grant {place:x}"));
        }
        8 => {
            let address = writer.random.pick(chain).address;
            writer.say(format!("grant {address:x}"));
        }
        9 => {
            change_next_word(writer, side, chain);
            call(writer, side);
        }
        10..=12 => led_and_changed(writer, side),
        13 => {
            start_again(writer, side);
            call(writer, side);
        }
        14 => {
            // Stopped, and its register written, without a start.
            writer.write_start(side, 0);
            let word = place | writer.low_bits();
            writer.write_next(side, word);
            writer.call(side);
        }
        15 => several(writer, side),
        16 => writer.any(),
        _ => writer.observe(),
    }
}

/// A start at any place of the chain.
fn start(writer: &mut Writer, side: Side, chain: &[Place]) {
    let word = writer.random.pick(chain).address | writer.low_bits();
    writer.write_next(side, word);
    writer.write_start(side, 5);
}

/// A frame or a send, and often what shows how it went on.
fn call(writer: &mut Writer, side: Side) {
    let lost = is_8(&writer.call(side));
    if lost && !writer.random.once_in(3) {
        go_on(writer, side);
    }
}

/// Leads the engine on by one descriptor, changes the word that led it there, and asks it again.
fn led_and_changed(writer: &mut Writer, side: Side) {
    let from = side.of(&writer.console.bench).place;
    writer.say(format!("grant {from:x}"));
    writer.call(side);
    let next = from.wrapping_add(8);
    let word = writer.word(next) ^ writer.random.pick(&[1, 1, 1, 2]);
    writer.poke_word(next, word);
    call(writer, side);
}

/// More than one frame or send in one line.
fn several(writer: &mut Writer, side: Side) {
    match side {
        Side::Receiving => writer.burst_and_look(),
        Side::Sending => {
            let allowance = writer.random.between(1, 6);
            writer.say(format!("run {allowance} 9000"));
            writer.say("state");
        }
    }
    if writer.random.once_in(2) {
        writer.call(side);
    }
}

#[cfg(test)]
mod tests {
    use super::*;

    #[test]
    fn each_chain_is_a_circle_of_its_own() {
        let mut writer = Writer::new(21);
        for counts in [[1, 1], [1, 4], [3, 2], [4, 4]] {
            let all = counts[0] + counts[1];
            writer.new_bench(all as u32 * (16 + SIZE));
            let table = chains(&mut writer, counts);
            let (first, second) = table.split_at(counts[0]);
            for chain in [first, second] {
                for (place, entry) in chain.iter().enumerate() {
                    let next = chain[(place + 1) % chain.len()].address;
                    assert_eq!(entry.next & !3, next);
                    let window = writer.console.bench.window;
                    assert!(window.places(entry.address, 16).is_some());
                    assert!(window.places(entry.start, SIZE.into()).is_some());
                }
            }
        }
    }
}
