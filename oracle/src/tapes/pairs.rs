//! Two faults at once, in one block or in two, to see which is told.

use super::faults::{Fault, FAULTS};
use super::{good, Tape};
use crate::random::Random;
use crate::trace::block;

/// Puts two faults into one block or, `apart`, into any two.
pub fn put(tape: &mut Tape, apart: bool, random: &mut Random) {
    let blocks = tape.blocks();
    let mut places = [random.below(blocks), random.below(blocks)];
    if !apart {
        places[1] = places[0];
    } else if random.once_in(2) {
        // The last block has faults that no other can have.
        places[random.below(2)] = blocks - 1;
    }
    let faults = places.map(|place| (random.pick(&FAULTS), place));
    tape.kind = match both(tape, faults, random) {
        true if apart => "two faults in any blocks",
        true => "two faults in one block",
        false => "two faults, of which one could not be put",
    }
    .to_string();
}

/// Every fault with every other: in one block, and in an earlier block than the other.
pub fn all(random: &mut Random) -> Vec<Tape> {
    let good: Vec<Tape> = (0..12).map(|_| three_blocks(random)).collect();
    let mut tapes = Vec::new();
    for first in FAULTS {
        for second in FAULTS {
            for (early, late) in [(0, 1), (0, 2), (1, 2), (0, 0), (1, 1), (2, 2)] {
                let mut tape = good[random.below(good.len())].clone();
                // The last of the places is the last block, the middle one any between.
                let last = tape.blocks() - 1;
                let middle = random.between(1, last - 1);
                let place = |place: usize| [0, middle, last][place];
                let faults = [(first, place(early)), (second, place(late))];
                if both(&mut tape, faults, random) {
                    tape.kind = match early == late {
                        true => format!("{first:?} and {second:?} in one block"),
                        false => format!("{first:?} in an earlier block than {second:?}"),
                    };
                    tapes.push(tape);
                }
            }
        }
    }
    tapes
}

/// Puts two faults, so that neither undoes what the other did. Gives whether both could be put.
fn both(tape: &mut Tape, mut faults: [(Fault, usize); 2], random: &mut Random) -> bool {
    // What cuts the trace comes last; then the other one may lie behind the cut.
    faults.sort_by_key(|(fault, _)| *fault);
    faults.iter().all(|(fault, place)| {
        let there = *place < tape.blocks();
        there && fault.put(tape, *place, random).is_some()
    })
}

/// A good trace in whose blocks every kind of fault has its place: three blocks or more, events
/// starting in each, the last one part-filled.
fn three_blocks(random: &mut Random) -> Tape {
    loop {
        let tape = good(random);
        let blocks = tape.blocks();
        let fit = (3..=9).contains(&blocks)
            && tape.used(blocks - 1) < block::DATA_MOST
            && (0..blocks).all(|place| !tape.starts_in(place).is_empty());
        if fit {
            return tape;
        }
    }
}
