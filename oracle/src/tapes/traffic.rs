//! Days on which frames come and go by turns: both engines run on rings of their own.

use super::Tape;
use crate::check;
use crate::frames::Ending;
use crate::random::Random;
use crate::trace::{Event, Header};

const WINDOW: u32 = 0x4000;

/// Where the descriptors and the buffers of each ring are, from the base on.
const RECEIVE: [u32; 2] = [0x000, 0x400];
const SEND: [u32; 2] = [0x100, 0x2000];
/// The bytes between two buffers.
const BUFFER: u32 = 0x600;

const NEXT_ENABLE: u32 = 1 << 14;
const POLLING: u32 = 1;

/// A good trace of such a day.
pub fn traffic(random: &mut Random) -> Tape {
    let base = random.pick(&[0, 0x0400_0000, 0_u32.wrapping_sub(WINDOW)]);
    let mut image = random.bytes(WINDOW as usize);
    let [receive, send] = [RECEIVE, SEND].map(|places| {
        let count = random.between(1, 4) as u32;
        ring(&mut image, base, places, count, random)
    });
    let mut events = starts(receive[0], send[0]);
    events.push(Event::Write {
        offset: 0x400,
        value: random.pick(&[0, 1 << 31, 5 << 17]),
    });
    for _ in 0..random.between(10, 60) {
        events.extend(match random.below(11) {
            0..=2 => vec![grant(&receive, random), frame(random)],
            3 => vec![frame(random)],
            4 => vec![grant(&receive, random)],
            5..=7 => vec![grant(&send, random), Event::Send],
            8 => vec![Event::Send],
            9 => vec![Event::Write {
                offset: 0x48,
                value: random.pick(&[0, 1, 5, 0xFFFF, 0x1_0000, 0xABCD_0003]),
            }],
            _ => starts(receive[0], send[0]),
        });
    }
    let header = Header {
        base,
        length: WINDOW,
    };
    Tape::new("Traffic", header, image, &events)
}

/// Puts a ring of descriptors into the image, and gives their addresses.
fn ring(
    image: &mut [u8],
    base: u32,
    [descriptors, buffers]: [u32; 2],
    count: u32,
    random: &mut Random,
) -> Vec<u32> {
    let addresses: Vec<u32> = (0..count)
        .map(|place| base + descriptors + 16 * place)
        .collect();
    for (place, at) in (0..count).zip(&addresses) {
        let length = match descriptors == RECEIVE[0] {
            true => 1_518,
            // What is sent is padded up to 60.
            false => random.pick(&[14, 20, 59, 60, 61, 200, 1_513, 1_514, 1_515]),
        };
        let next = addresses[(place as usize + 1) % addresses.len()];
        let words = [
            length | NEXT_ENABLE,
            base + buffers + BUFFER * place,
            next | POLLING,
            0,
        ];
        let from = (at - base) as usize;
        for (field, word) in (from..).step_by(4).zip(words) {
            image[field..field + 4].copy_from_slice(&word.to_le_bytes());
        }
    }
    addresses
}

/// Both engines started anew; one that runs keeps its place.
fn starts(receive: u32, send: u32) -> Vec<Event> {
    let write = |offset, value| Event::Write { offset, value };
    vec![
        write(0x1C, receive | POLLING),
        write(0x10, 5),
        write(0x3C, send | POLLING),
        write(0x30, 5),
    ]
}

fn grant(ring: &[u32], random: &mut Random) -> Event {
    Event::Grant {
        address: random.pick(ring),
    }
}

/// A frame to all stations, to a group or to another station, most often a right one.
fn frame(random: &mut Random) -> Event {
    let length = match random.below(8) {
        0 => random.pick(&[59, 60, 61, 1_513, 1_514, 1_515]),
        _ => random.between(60, 120),
    };
    let mut message = random.bytes(length);
    match random.below(4) {
        0 => message[0] = random.pick(&[0x01, 0x02]),
        _ => message[..6].fill(0xFF),
    }
    let bytes = match random.below(6) {
        0 => random.pick(&Ending::ALL).make(&message, random),
        _ => check::closed(&message),
    };
    Event::Frame { bytes }
}
