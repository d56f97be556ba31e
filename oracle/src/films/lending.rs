//! What is lent to an import: rooms of every length that matters, filled so that a byte too many shows.

use super::refusals::walked;
use super::Film;
use crate::random::Random;

#[derive(Clone, Debug, PartialEq, Eq)]
pub struct Rooms {
    pub events: Vec<u8>,
    pub times: Vec<u8>,
}

impl Rooms {
    /// Rooms for the records of a capture, or those before its first wrong one; most often enough.
    pub fn new(film: &Film, random: &mut Random) -> Rooms {
        let walked = walked(&film.bytes);
        let (frames, events, times) = (walked.frames, walked.events, walked.times);
        let both = random.below(12);
        let events = match both {
            0 => 0,
            1 => events + 100,
            // Without the check sequences, and without the heads.
            2 => length(events, events - 4 * frames, random),
            3 => length(events, events - 5 * frames, random),
            4..=6 => length(events, events / 2, random),
            _ => events,
        };
        let times = match both {
            0 => 0,
            1 => times + 100,
            // Four bytes for each, and one.
            7 => length(times, 4 * frames, random),
            8 => length(times, frames, random),
            4..=6 => length(times, times / 2, random),
            _ => times,
        };
        Rooms {
            events: random.bytes(events),
            times: random.bytes(times),
        }
    }
}

/// So many bytes as are needed, one or some less, or more.
fn length(needed: usize, less: usize, random: &mut Random) -> usize {
    match random.below(8) {
        0 | 1 => needed.saturating_sub(1),
        2 | 3 => less,
        4 => needed + 1,
        5 => needed + random.below(600),
        _ => needed,
    }
}
