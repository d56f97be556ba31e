//! The kinds of random trace, and one of each by turns.

use super::{damage, good, pairs, Fault, Tape, FAULTS};
use crate::random::Random;

/// How many kinds take turns.
pub const KINDS: u64 = 16;

/// The random trace of a seed; which kind it is goes by the seed too, so that all kinds come round.
/// A few seeds in a row have one day.
pub fn random(seed: u64) -> Tape {
    let mut day = Random::new((seed / 4) ^ 0xDA11);
    let mut tape = good(&mut day);
    let random = &mut Random::new(seed);
    match seed % KINDS {
        0..=5 => tape.kind = format!("good {}", tape.kind),
        6..=10 => one_fault(&mut tape, random),
        11 => pairs::put(&mut tape, false, random),
        12 => pairs::put(&mut tape, true, random),
        13 => damage::frame_length(&mut tape, random),
        _ => damage::put(&mut tape, random),
    }
    tape
}

/// One fault in the first, a middle or the last block.
fn one_fault(tape: &mut Tape, random: &mut Random) {
    let last = tape.blocks() - 1;
    let place = match random.below(3) {
        0 => 0,
        1 if last > 1 => random.between(1, last - 1),
        _ => last,
    };
    for _ in 0..8 {
        // The last block has more kinds than any other; then it is asked again.
        let fault = match random.below(3) {
            0 if place == last => Fault::Fill,
            _ => random.pick(&FAULTS),
        };
        if let Some(name) = fault.put(tape, place, random) {
            tape.kind = format!("one fault: {name}");
            return;
        }
    }
    tape.kind = "no fault could be put".to_string();
}
