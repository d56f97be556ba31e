//! Records that are cut, and records whose lengths are unequal.

use super::Film;
use crate::capture::record::{CAPTURED, HEAD, ORIGINAL};
use crate::random::Random;

#[derive(Clone, Copy, Debug, PartialEq, Eq)]
pub enum RecordFault {
    /// The file ends inside its head.
    CutHead,
    /// The file ends inside its bytes.
    CutBytes,
    /// Both lengths reach past the file's end.
    TooLong,
    /// The captured one alone does.
    CapturedTooLong,
    /// The original one is larger, as in a file that holds fronts of frames.
    OriginalLarger,
    OriginalSmaller,
    /// The captured one is smaller, and all of that is there.
    CapturedSmaller,
}

pub const RECORD_FAULTS: [RecordFault; 7] = [
    RecordFault::CutHead,
    RecordFault::CutBytes,
    RecordFault::TooLong,
    RecordFault::CapturedTooLong,
    RecordFault::OriginalLarger,
    RecordFault::OriginalSmaller,
    RecordFault::CapturedSmaller,
];

impl RecordFault {
    /// Puts the fault into the record of this place, or gives nothing if it cannot have it.
    pub fn put(self, film: &mut Film, place: usize, random: &mut Random) -> Option<()> {
        let start = *film.starts.get(place)?;
        let behind = start + HEAD;
        let length = film.length(place);
        let left = film.bytes.len().checked_sub(behind)?;
        let too_long = |random: &mut Random| {
            let left = left as u32;
            random.pick(&[
                left + 1,
                left + 2,
                left + 16,
                left + (1 << 16),
                left | 1 << 31,
                // With the 16 bytes of the head these are 0 and 1 in 32 bits.
                u32::MAX - 15,
                u32::MAX - 14,
                u32::MAX - 3,
                u32::MAX,
            ])
        };
        match self {
            RecordFault::CutHead => film.bytes.truncate(start + random.between(1, HEAD - 1)),
            RecordFault::CutBytes if length == 0 => return None,
            RecordFault::CutBytes => film.bytes.truncate(behind + random.below(length)),
            RecordFault::TooLong => {
                let wrong = too_long(random);
                film.put_word(start + CAPTURED, wrong);
                film.put_word(start + ORIGINAL, wrong);
            }
            RecordFault::CapturedTooLong => {
                let wrong = too_long(random);
                film.put_word(start + CAPTURED, wrong);
            }
            RecordFault::OriginalLarger => {
                let length = length as u32;
                let wrong = random.pick(&[
                    length + 1,
                    length + 4,
                    length + 1_000,
                    length + (1 << 16),
                    length | 1 << 31,
                    u32::MAX,
                ]);
                film.put_word(start + ORIGINAL, wrong);
            }
            RecordFault::OriginalSmaller | RecordFault::CapturedSmaller if length == 0 => {
                return None;
            }
            RecordFault::OriginalSmaller => {
                let wrong = smaller(length, random);
                film.put_word(start + ORIGINAL, wrong);
            }
            RecordFault::CapturedSmaller => {
                let wrong = smaller(length, random);
                film.put_word(start + CAPTURED, wrong);
            }
        }
        Some(())
    }

    /// The number that it is refused by, alone in a good capture.
    pub fn number(self) -> u32 {
        match self {
            RecordFault::CutHead
            | RecordFault::CutBytes
            | RecordFault::TooLong
            | RecordFault::CapturedTooLong => 35,
            RecordFault::OriginalLarger
            | RecordFault::OriginalSmaller
            | RecordFault::CapturedSmaller => 36,
        }
    }
}

fn smaller(length: usize, random: &mut Random) -> u32 {
    match random.below(3) {
        0 => 0,
        1 => length as u32 - 1,
        _ => random.below(length) as u32,
    }
}

impl Film {
    /// How many bytes the record of this place had while the capture was good.
    fn length(&self, place: usize) -> usize {
        let end = self.starts.get(place + 1).copied();
        end.unwrap_or(self.bytes.len())
            .saturating_sub(self.starts[place] + HEAD)
    }

    fn put_word(&mut self, place: usize, word: u32) {
        self.bytes[place..place + 4].copy_from_slice(&word.to_le_bytes());
    }
}
