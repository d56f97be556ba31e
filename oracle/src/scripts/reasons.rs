//! Frames taken for every reason on a few descriptors, each delivery looked at before the next grant.

use super::layout::{Place, NEXT_ENABLE, POLLING};
use super::receiving;
use super::writer::Writer;
use crate::hex;

/// The bytes of each buffer: enough for a short frame, and for most of a burst's.
const SIZE: u32 = 124;

pub fn on_a_short_ring(writer: &mut Writer) {
    let count = writer.random.between(1, 4);
    let slack = 4 * writer.random.below(8) as u32;
    writer.new_bench(count as u32 * (16 + SIZE) + slack);
    let ring = ring(writer, count);
    for place in &ring {
        place.write(writer);
        writer.marks.push(place.address);
    }
    writer.set_filter();
    receiving::start_by(writer, ring[0].address | POLLING);
    for _ in 0..writer.random.between(20, 60) {
        step(writer, &ring);
    }
    writer.observe();
}

/// Descriptors from the window's start on that go round with polling, their buffers behind them.
fn ring(writer: &mut Writer, count: usize) -> Vec<Place> {
    let base = writer.base();
    let address = |place: usize| base.wrapping_add(16 * place as u32);
    (0..count)
        .map(|place| Place {
            address: address(place),
            control: SIZE | NEXT_ENABLE,
            start: address(count).wrapping_add(SIZE * place as u32),
            next: address((place + 1) % count) | POLLING,
            status: writer.random.pick(&[0, 64, 0x1800_0040]),
        })
        .collect()
}

fn step(writer: &mut Writer, ring: &[Place]) {
    if !writer.console.bench.receiver.running {
        receiving::start_by(writer, ring[0].address | POLLING);
    }
    match writer.random.below(12) {
        0..=7 => {
            let place = writer.console.bench.receiver.place;
            receiving::grant(writer, place);
            frame(writer);
            receiving::look_at(writer, place);
        }
        8 | 9 => {
            for place in ring {
                receiving::grant(writer, place.address);
            }
            writer.burst_of(ring.len());
            writer.say("check");
        }
        10 => writer.set_filter(),
        _ => writer.change_filter(),
    }
}

/// A short frame, most often one that passes.
fn frame(writer: &mut Writer) {
    let length = writer.random.between(64, 120);
    let frame = match writer.random.below(4) {
        0 => writer.frame_of(length),
        _ => writer.passing_frame(length),
    };
    writer.say(format!("frame {}", hex::write(&frame)));
}
