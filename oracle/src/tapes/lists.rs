//! Event lists to be written, with windows and rooms; good ones, and ones to be refused.

use super::damage::length_bit;
use super::{good, lending};
use crate::random::Random;
use crate::trace::{block, starts, Header};

/// What becomes of a list.
pub const DAMAGES: [&str; 8] = [
    "none",
    "cut",
    "unknown first byte",
    "byte put in",
    "byte taken out",
    "frame length changed",
    "bit flipped",
    "random bytes",
];

/// What a writing is given.
#[derive(Clone)]
pub struct List {
    pub base: u32,
    pub window: u32,
    pub events: Vec<u8>,
    pub room: Vec<u8>,
    pub damage: &'static str,
}

impl List {
    /// The random list of a seed.
    pub fn random(seed: u64) -> List {
        let mut day = Random::new((seed / 4) ^ 0x115F);
        let random = &mut Random::new(seed);
        let content = crate::trace::content(&good(&mut day).bytes);
        let content = content.expect("a good trace has no bad block");
        let mut events = content.events;
        let Header { base, length } = content.header;
        let (base, window) = match random.below(6) {
            0 => other_window(base, length, random),
            _ => (base, length),
        };
        let damage = match random.below(4) {
            0 => damage(&mut events, random),
            _ => DAMAGES[0],
        };
        let blocks = (Header::SIZE + events.len()).div_ceil(block::DATA_MOST);
        let room = match random.below(8) {
            // A block too few, and the blocks' data alone.
            0 => block::SIZE * (blocks - 1),
            1 => events.len() + Header::SIZE,
            _ => block::SIZE * blocks,
        };
        List {
            base,
            window,
            events,
            room: lending::room(room, random),
            damage,
        }
    }
}

/// Windows at the limits of what is allowed.
fn other_window(base: u32, length: u32, random: &mut Random) -> (u32, u32) {
    match random.below(10) {
        0 => (base, random.pick(&[0, 4, 60])),
        1 => (base, length + random.between(1, 3) as u32),
        2 => (base | random.between(1, 3) as u32, length),
        3 => (0, random.pick(&[64, 65_532, 65_536])),
        4 => (0, random.pick(&[65_537, 65_540, 98_304, 131_072])),
        5 => (0_u32.wrapping_sub(length), length),
        6 => (4_u32.wrapping_sub(length), length),
        // What would be allowed in 16 or in 32 bits.
        7 => (
            0,
            random.pick(&[0x1_0040, 0x8000_0040, u32::MAX, 0xFFFF_0000]),
        ),
        8 => (0xFFFF_FFFC, random.pick(&[64, 65_536, 0xFFFF_FFFC])),
        _ => (random.word(), random.below(70_000) as u32),
    }
}

fn damage(events: &mut Vec<u8>, random: &mut Random) -> &'static str {
    let places = starts(events).expect("a good list is of its form");
    if places.is_empty() {
        events.push(random.pick(&[0, 1, 5, 255]));
        return "unknown first byte";
    }
    let start = match random.below(3) {
        0 => places[0],
        1 => places[places.len() - 1],
        _ => random.pick(&places),
    };
    let length = events.len();
    match random.below(7) {
        0 => {
            events.truncate(random.below(length));
            "cut"
        }
        1 => {
            events[start] = random.pick(&[0, 5, 255, 6, 128]);
            "unknown first byte"
        }
        2 => {
            let place = random.below(length + 1);
            events.insert(place, random.byte());
            "byte put in"
        }
        3 => {
            events.remove(random.below(length));
            "byte taken out"
        }
        4 => {
            let frame: Vec<usize> = places.into_iter().filter(|p| events[*p] == 3).collect();
            if !frame.is_empty() {
                let bit = length_bit(random);
                let field = random.pick(&frame) + 1;
                events[field + bit / 8] ^= 1 << (bit % 8);
            }
            "frame length changed"
        }
        5 => {
            events[random.below(length)] ^= 1 << random.below(8);
            "bit flipped"
        }
        _ => {
            let length = random.below(60);
            *events = random.bytes(length);
            "random bytes"
        }
    }
}
