//! What is lent to a reading and to a replay: rooms, memories, outputs and answer lists of every
//! length that matters, filled so that a byte too many shows.

use super::Tape;
use crate::random::Random;
use crate::trace::{self, Content};

#[derive(Clone, Debug, PartialEq, Eq)]
pub struct Lent {
    pub room: Vec<u8>,
    pub memory: Vec<u8>,
    pub output: Vec<u8>,
    pub answers: Vec<u32>,
}

impl Lent {
    /// What a replay of the trace is lent; most often enough.
    pub fn new(tape: &Tape, random: &mut Random) -> Lent {
        let content = trace::content(&tape.bytes).ok();
        let (bytes, events) = match &content {
            Some(content) => (content.events.len(), content.count as usize),
            None => (tape.bytes.len(), tape.starts.len()),
        };
        let answers = list(events, random);
        Lent {
            room: room(bytes, random),
            memory: memory(tape, content.as_ref(), random),
            output: output(random),
            answers: (0..answers).map(|_| random.word()).collect(),
        }
    }
}

/// A room for as many bytes as are needed, for more, or for less.
pub fn room(needed: usize, random: &mut Random) -> Vec<u8> {
    let length = match random.below(16) {
        0 => needed.saturating_sub(1),
        1 => random.pick(&[0, needed / 2]),
        2 => random.below(needed + 1),
        3 => needed + 1,
        4..=6 => needed + random.below(600),
        _ => needed,
    };
    random.bytes(length)
}

/// An answer list for as many events, for more, or for less.
fn list(events: usize, random: &mut Random) -> usize {
    match random.below(16) {
        0 => events.saturating_sub(1),
        1 => random.below(events + 1),
        2 => events + 1,
        3 | 4 => events + random.below(40),
        _ => events,
    }
}

/// The window's bytes, or memory of another length.
fn memory(tape: &Tape, content: Option<&Content>, random: &mut Random) -> Vec<u8> {
    let window = content.map_or(tape.image.len(), |content| content.header.length as usize);
    let length = match random.below(32) {
        0 => window + 4,
        1 => window - window.min(4),
        2 => random.pick(&[0, window + 1, window - window.min(1), 65_540, 98_312]),
        _ => window,
    };
    let mut memory = tape.image.clone();
    memory.resize(length, 0xC3);
    memory
}

fn output(random: &mut Random) -> Vec<u8> {
    let length = match random.below(16) {
        0 => random.pick(&[0, 1, 64, 1_517]),
        1 => 1_517,
        2 => 1_519,
        // Longer than two frames: each send is lent the whole of it.
        3..=5 => random.between(1_518, 4_000),
        _ => 1_518,
    };
    random.bytes(length)
}
