//! Events cut at every place, where the cut stands anywhere to a block's end; headers cut.

use super::Tape;
use crate::random::Random;
use crate::trace::{block, Event, Header};

/// Every event cut at every place, and whole: at the front of a block, in its middle, with the cut
/// at a block's end, or across one.
pub fn cut_events(random: &mut Random) -> Vec<Tape> {
    let whole: [&[u8]; 5] = [
        &[1, 8, 0, 0, 0, 0xFF, 0xFF, 0xFF, 0xFF],
        &[2, 0x10, 0, 0, 0],
        &[3, 0, 0, 0, 0],
        &[3, 3, 0, 0, 0, 4, 4, 4],
        &[4],
    ];
    let mut tapes = Vec::new();
    for event in whole {
        for cut in 0..=event.len() {
            // How many bytes of the event stand before a block's end.
            for before in 0..=cut {
                for blocks in 1..=3 {
                    let filler = blocks * block::DATA_MOST - before - Header::SIZE;
                    tapes.push(tape(filler, &event[..cut], random));
                }
            }
            let filler = random.below(400);
            tapes.push(tape(filler, &event[..cut], random));
        }
    }
    tapes
}

/// The trace of sends and then the front of an event.
fn tape(sends: usize, front: &[u8], random: &mut Random) -> Tape {
    let header = Header::allowed(0x0400_0000, 64).expect("a window of 64 is allowed");
    let sends = vec![Event::Send; sends];
    let mut tape = Tape::new("event cut", header, random.bytes(64), &sends);
    let data = [header.bytes(), Event::list(&sends), front.to_vec()].concat();
    tape.bytes = block::all(&data);
    tape
}

/// Headers cut after each byte, and whole ones.
pub fn cut_headers(random: &mut Random) -> Vec<Tape> {
    let header = Header::allowed(0x0400_0000, 64).expect("a window of 64 is allowed");
    (1..=Header::SIZE)
        .map(|used| {
            let mut tape = Tape::new("header cut", header, random.bytes(64), &[]);
            tape.bytes = block::all(&header.bytes()[..used]);
            tape
        })
        .collect()
}
