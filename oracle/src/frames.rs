//! Random frames, right and damaged, for the comparisons.

use crate::random::Random;
use crate::{check, groups};

/// How a frame's destination stands to the station address.
#[derive(Clone, Copy, Debug, PartialEq, Eq, PartialOrd, Ord)]
pub enum Destination {
    Own,
    OneBitOff,
    OneByteOff,
    Reversed,
    HalvesSwapped,
    Broadcast,
    AlmostBroadcast,
    Group,
    Other,
}

impl Destination {
    pub const ALL: [Destination; 9] = [
        Destination::Own,
        Destination::OneBitOff,
        Destination::OneByteOff,
        Destination::Reversed,
        Destination::HalvesSwapped,
        Destination::Broadcast,
        Destination::AlmostBroadcast,
        Destination::Group,
        Destination::Other,
    ];

    /// A destination of this kind for a station.
    pub fn make(self, station: [u8; 6], random: &mut Random) -> [u8; 6] {
        let mut address = station;
        match self {
            Destination::Own => {}
            Destination::OneBitOff => address[random.below(6)] ^= 1 << random.below(8),
            Destination::OneByteOff => address[random.below(6)] ^= random.between(1, 255) as u8,
            Destination::Reversed => address.reverse(),
            // The station with the high register's half in front.
            Destination::HalvesSwapped => address.rotate_right(2),
            Destination::Broadcast => address = [0xFF; 6],
            Destination::AlmostBroadcast => {
                address = [0xFF; 6];
                address[random.below(6)] ^= 1 << random.below(8);
            }
            Destination::Group => address = groups::any(random),
            Destination::Other => address.copy_from_slice(&random.bytes(6)),
        }
        address
    }
}

/// What becomes of a frame's check sequence.
#[derive(Clone, Copy, Debug, PartialEq, Eq, PartialOrd, Ord)]
pub enum Ending {
    Right,
    BitFlipped,
    BytesSwapped,
    Truncated,
    Extended,
    OtherByteOrder,
    Uncomplemented,
    TwoBitsComplemented,
    BitsReversed,
    Random,
}

impl Ending {
    pub const ALL: [Ending; 10] = [
        Ending::Right,
        Ending::BitFlipped,
        Ending::BytesSwapped,
        Ending::Truncated,
        Ending::Extended,
        Ending::OtherByteOrder,
        Ending::Uncomplemented,
        Ending::TwoBitsComplemented,
        Ending::BitsReversed,
        Ending::Random,
    ];

    /// The message with a check sequence of this kind behind it.
    pub fn make(self, message: &[u8], random: &mut Random) -> Vec<u8> {
        let mut frame = check::closed(message);
        let length = frame.len();
        let last = length - 4;
        match self {
            Ending::Right => {}
            Ending::BitFlipped => frame[random.below(length)] ^= 1 << random.below(8),
            Ending::BytesSwapped => frame.swap(random.below(length), random.below(length)),
            Ending::Truncated => frame.truncate(length - random.between(1, 4)),
            Ending::Extended => {
                let extra = random.between(1, 4);
                frame.extend(random.bytes(extra));
            }
            Ending::OtherByteOrder => frame[last..].reverse(),
            Ending::Uncomplemented => frame[last..].iter_mut().for_each(|byte| *byte = !*byte),
            Ending::TwoBitsComplemented => {
                frame[last..].copy_from_slice(&check::division(message, 2))
            }
            Ending::BitsReversed => frame[last..]
                .iter_mut()
                .for_each(|byte| *byte = byte.reverse_bits()),
            Ending::Random => frame[last..].copy_from_slice(&random.bytes(4)),
        }
        frame
    }
}

/// A frame length with weight on the boundaries.
pub fn length(random: &mut Random) -> usize {
    match random.below(8) {
        0 => random.between(0, 8),
        1 | 2 => random.between(60, 70),
        3 => random.between(1_510, 1_525),
        4 => random.pick(&[63, 64, 1_518, 1_519]),
        5 => random.between(64, 200),
        _ => random.between(0, 2_000),
    }
}

/// A message of `length` - 4 bytes to `destination`, as far as it goes; its rest is random.
pub fn message(destination: [u8; 6], length: usize, random: &mut Random) -> Vec<u8> {
    let mut message = random.bytes(length.saturating_sub(4));
    let shown = message.len().min(6);
    message[..shown].copy_from_slice(&destination[..shown]);
    message
}
