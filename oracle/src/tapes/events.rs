//! Events that no script line can have, or that have no sense where they stand.

use crate::frames;
use crate::random::Random;
use crate::trace::Event;

/// The longest frame that is made.
const FRAME_MOST: usize = 3_000;

/// Any event, whatever the bench answers to it.
pub fn any(random: &mut Random) -> Event {
    match random.below(8) {
        0 | 1 => Event::Write {
            offset: random.pick(&[0, 4, 8, 0x10, 0x30, 0x48, 0x48, 0x400, 0x414, u32::MAX]),
            value: random.word(),
        },
        2 => Event::Write {
            offset: random.word(),
            value: random.word(),
        },
        3 => Event::Grant {
            address: random.word(),
        },
        4 => Event::Send,
        _ => frame(random),
    }
}

/// A frame of any length, from none to more than any frame has.
pub fn frame(random: &mut Random) -> Event {
    let length = match random.below(6) {
        0 => random.below(4),
        1 => random.pick(&[63, 64, 493, 494, 498, 499, 503, 504, 505, 1_008, FRAME_MOST]),
        2 => random.between(0, FRAME_MOST),
        3 => frames::length(random),
        _ => random.below(80),
    };
    // Frames full of first bytes, so that one out of step with its events goes on.
    let bytes = match random.below(3) {
        0 => vec![random.pick(&[0, 1, 2, 3, 4, 0xFF]); length],
        _ => random.bytes(length),
    };
    Event::Frame { bytes }
}
