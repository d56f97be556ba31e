//! Lists of frames to be exported, with rooms; good ones, and ones to be refused.

use super::frames::{right, time, wrong, WRONGS};
use crate::capture::{header, list, Timed};
use crate::random::Random;
use crate::tapes::room;

/// What frames a list has.
pub const FILLINGS: [&str; 6] = [
    "no frames",
    "right frames",
    "a wrong frame",
    "two wrong frames",
    "wrong frames",
    "one frame",
];

/// What becomes of its form.
pub const DAMAGES: [&str; 8] = [
    "none",
    "cut in a head",
    "cut in a frame",
    "cut anywhere",
    "bytes behind",
    "length too large",
    "length changed",
    "random bytes",
];

/// What an export is given.
#[derive(Clone)]
pub struct FrameList {
    pub filling: &'static str,
    pub damage: &'static str,
    pub bytes: Vec<u8>,
    pub room: Vec<u8>,
}

impl FrameList {
    /// The random list of a seed; what is in it goes by the seed too, so that all kinds come round.
    pub fn random(seed: u64) -> FrameList {
        let random = &mut Random::new(seed ^ 0xF1A5);
        let filling = match seed % 12 {
            0..=4 | 8 | 9 => FILLINGS[1],
            5 => FILLINGS[2],
            6 => FILLINGS[3],
            7 => FILLINGS[4],
            10 => random.pick(&FILLINGS[2..]),
            _ => random.pick(&[FILLINGS[0], FILLINGS[5]]),
        };
        let frames = frames(filling, random);
        let mut bytes = list::made(&frames);
        let damage = match seed % 12 {
            8..=10 => damage(&mut bytes, &frames, random),
            _ => DAMAGES[0],
        };
        let needed = header::SIZE + bytes.len();
        let room = match random.below(12) {
            // Without the header, the header alone, and without the check sequences.
            0 => {
                let length = random.pick(&[
                    bytes.len(),
                    header::SIZE,
                    header::SIZE - 1,
                    needed - needed.min(4 * frames.len()),
                ]);
                random.bytes(length)
            }
            _ => room(needed, random),
        };
        FrameList {
            filling,
            damage,
            bytes,
            room,
        }
    }
}

fn frames(filling: &str, random: &mut Random) -> Vec<Timed> {
    let count = match filling {
        "no frames" => 0,
        "one frame" => 1,
        _ => random.between(2, 6),
    };
    let mut frames: Vec<Timed> = (0..count)
        .map(|_| Timed {
            time: time(random),
            frame: right(random),
        })
        .collect();
    let mut spoil = |place: usize, random: &mut Random| {
        frames[place].frame = wrong(random.pick(&WRONGS), random);
    };
    match filling {
        "one frame" if random.once_in(2) => spoil(0, random),
        "a wrong frame" => spoil(random.below(count), random),
        "two wrong frames" => {
            let first = random.below(count - 1);
            spoil(first, random);
            spoil(random.between(first + 1, count - 1), random);
        }
        "wrong frames" => (0..count).for_each(|place| spoil(place, random)),
        _ => {}
    }
    frames
}

/// Spoils the form of a list of some frames, most often.
fn damage(bytes: &mut Vec<u8>, frames: &[Timed], random: &mut Random) -> &'static str {
    let damage = random.pick(&DAMAGES[1..]);
    let length = bytes.len();
    let place = match random.below(2) {
        0 => frames.len() - 1,
        _ => random.below(frames.len()),
    };
    let start: usize = frames[..place]
        .iter()
        .map(|timed| list::HEAD + timed.frame.len())
        .sum();
    let behind = start + list::HEAD;
    let frame = frames[place].frame.len();
    let field = start + list::LENGTH..behind;
    match damage {
        "cut in a head" => bytes.truncate(start + random.between(1, list::HEAD - 1)),
        "cut in a frame" => bytes.truncate(behind + random.below(frame.max(1))),
        "cut anywhere" => bytes.truncate(random.below(length)),
        "bytes behind" => {
            let more = random.between(1, list::HEAD - 1);
            bytes.extend(random.bytes(more));
        }
        "length too large" => {
            let left = (length - behind) as u32;
            let wrong = random.pick(&[
                left + 1,
                left + 2,
                left + 12,
                left + (1 << 16),
                left | 1 << 31,
                // With the 12 bytes of the head these are 0 and 1 in 32 bits.
                u32::MAX - 11,
                u32::MAX - 10,
                u32::MAX,
            ]);
            bytes[field].copy_from_slice(&wrong.to_le_bytes());
        }
        "length changed" => {
            let length = frame as u32;
            let any = random.below(frame + 1) as u32;
            let wrong = random.pick(&[
                length.wrapping_sub(4),
                length.wrapping_sub(1),
                length + 1,
                length + 4,
                length + 12,
                0,
                any,
            ]);
            bytes[field].copy_from_slice(&wrong.to_le_bytes());
        }
        _ => {
            let length = random.between(1, 40);
            *bytes = random.bytes(length);
        }
    }
    damage
}
