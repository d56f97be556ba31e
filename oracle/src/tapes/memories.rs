//! Memory files for the replay of a trace: of the window's length, and of others.

use super::Tape;
use crate::programs::replay::MEMORY_MOST;
use crate::random::Random;

/// How long the memory file is.
pub const MEMORIES: [&str; 8] = [
    "the window's",
    "shorter by 1",
    "shorter",
    "longer by 1",
    "longer",
    "empty",
    "as much as is taken",
    "more than is taken",
];

/// The image of a trace as a file of this kind.
pub fn memory(tape: &Tape, kind: &str, random: &mut Random) -> Vec<u8> {
    let window = tape.image.len();
    let length = match kind {
        "shorter by 1" => window - 1,
        "shorter" => random.below(window),
        "longer by 1" => window + 1,
        "longer" => window + random.between(2, 5_000),
        "empty" => 0,
        "as much as is taken" => MEMORY_MOST,
        "more than is taken" => MEMORY_MOST + random.pick(&[1, 4, 1_000_000]),
        _ => window,
    };
    let mut memory = tape.image.clone();
    while memory.len() < length {
        let piece = random.bytes(64);
        memory.extend(piece);
    }
    memory.truncate(length);
    memory
}
