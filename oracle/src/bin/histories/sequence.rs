//! The sequence of frames that histories meet.

use crate::start::Start;
use oracle::address::{Filter, HASH_MODE};
use oracle::frames::{self, Destination, Ending};
use oracle::groups;
use oracle::random::Random;

pub fn sequence(start: &Start, random: &mut Random) -> Vec<Vec<u8>> {
    let length = match random.below(8) {
        0 => random.between(64, 100),
        _ => random.between(1, 40),
    };
    let mut sequence: Vec<Vec<u8>> = Vec::new();
    for place in 0..length {
        let frame = match random.below(10) {
            0 if place > 0 => again(&sequence[random.below(place)], random),
            _ => frame(start, random),
        };
        sequence.push(frame);
    }
    sequence
}

/// A frame that was there before, or a part of it, so that a burst's pairs can share bytes.
fn again(frame: &[u8], random: &mut Random) -> Vec<u8> {
    let part = random.below(frame.len() + 1);
    match random.below(4) {
        0 => frame[part..].to_vec(),
        1 => frame[..part].to_vec(),
        _ => frame.to_vec(),
    }
}

/// A frame for the start's filter registers, most often one that passes.
fn frame(start: &Start, random: &mut Random) -> Vec<u8> {
    let destination = destination(&start.bench.filter(), random);
    let ending = match random.below(8) {
        0 => random.pick(&Ending::ALL),
        _ => Ending::Right,
    };
    let length = match random.below(3) {
        0 => frames::length(random),
        1 => random.pick(&[64, 1_518]),
        _ => random.between(64, 300),
    };
    let message = frames::message(destination, length, random);
    ending.make(&message, random)
}

/// Where the hash is asked, half of all frames are to groups that it takes or turns away.
fn destination(filter: &Filter, random: &mut Random) -> [u8; 6] {
    if filter.mode() == HASH_MODE && random.once_in(2) {
        let level = random.once_in(2);
        return groups::at_level(filter, level, random);
    }
    let kind = match random.below(3) {
        0 => random.pick(&Destination::ALL),
        1 => Destination::Broadcast,
        _ => Destination::Own,
    };
    kind.make(filter.station(), random)
}
