//! Frames for a list, right and wrong, and times for them.

use crate::capture::Time;
use crate::check;
use crate::frames::Ending;
use crate::random::Random;

/// How a frame of a list is wrong.
#[derive(Clone, Copy, Debug, PartialEq, Eq)]
pub enum Wrong {
    Short,
    ShortAndCheck,
    Long,
    LongAndCheck,
    Check,
}

pub const WRONGS: [Wrong; 5] = [
    Wrong::Short,
    Wrong::ShortAndCheck,
    Wrong::Long,
    Wrong::LongAndCheck,
    Wrong::Check,
];

/// Any time, often at a limit of what its numbers can be.
pub fn time(random: &mut Random) -> Time {
    Time {
        seconds: number(random),
        microseconds: number(random),
    }
}

fn number(random: &mut Random) -> u32 {
    match random.below(4) {
        0 => random.pick(&[0, 1, 999_999, 1_000_000, 1_000_001, 1 << 31, u32::MAX]),
        1 => random.below(1_000_000) as u32,
        _ => random.word(),
    }
}

/// A right frame of 64 to 1,518 bytes.
pub fn right(random: &mut Random) -> Vec<u8> {
    let length = match random.below(8) {
        0 => random.pick(&[64, 65, 66, 1_516, 1_517, 1_518]),
        1 => random.between(64, 1_518),
        _ => random.between(64, 160),
    };
    closed(length, random)
}

/// A frame that is wrong in this way.
pub fn wrong(kind: Wrong, random: &mut Random) -> Vec<u8> {
    match kind {
        Wrong::Short => {
            let length = match random.below(2) {
                0 => random.between(4, 63),
                _ => random.pick(&[4, 5, 11, 59, 60, 61, 62, 63, 63]),
            };
            closed(length, random)
        }
        Wrong::ShortAndCheck => {
            let length = match random.below(2) {
                0 => random.pick(&[0, 1, 2, 3, 4, 11, 60, 63]),
                _ => random.below(64),
            };
            spoiled(length, random)
        }
        Wrong::Long => closed(long(random), random),
        Wrong::LongAndCheck => spoiled(long(random), random),
        // Long enough, and not too long, whatever its ending does.
        Wrong::Check => {
            let length = match random.below(8) {
                0 => random.pick(&[1_400, 1_505, 1_509]),
                _ => random.between(64, 160),
            };
            let message = random.bytes(length);
            let mut frame = random.pick(&Ending::ALL).make(&message, random);
            if check::right(&frame) {
                frame[random.below(length)] ^= 1 << random.below(8);
            }
            frame
        }
    }
}

fn long(random: &mut Random) -> usize {
    match random.below(3) {
        0 => random.between(1_519, 2_500),
        _ => random.pick(&[1_519, 1_520, 1_522, 1_523]),
    }
}

fn closed(length: usize, random: &mut Random) -> Vec<u8> {
    check::closed(&random.bytes(length - 4))
}

/// A frame of this many bytes with a wrong check sequence.
fn spoiled(length: usize, random: &mut Random) -> Vec<u8> {
    let mut frame = random.bytes(length);
    if check::right(&frame) {
        frame[length - 1] ^= 1;
    }
    frame
}
