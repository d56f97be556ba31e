//! "Replay refuses as reading does, or if the lent answer list is short, with row 1's state; else
//! answers, state, memory and output are those of direct calls on a new bench of its window, lent
//! the same memory and output."

use super::list::events;
use super::reading::read;
use crate::device::Bench;
use crate::numbers::{ANSWERS_SHORT, DONE};

/// What a replay gives back. A refused one has no bytes and no events, and row 1's state.
#[derive(Clone, Debug, PartialEq, Eq)]
pub struct Replay {
    pub number: u32,
    pub block: u64,
    pub bytes: u64,
    pub events: u64,
    pub bench: Bench,
}

impl Replay {
    fn refused(number: u32, block: u64) -> Replay {
        Replay {
            number,
            block,
            bytes: 0,
            events: 0,
            // Row 1: "the reset state, not running, base and window length 0".
            bench: Bench::new(0, 0).0,
        }
    }
}

/// Plays a trace on a new bench. Its event bytes come to the front of the room and the answers to
/// the front of their list; a refusal changes nothing that is lent.
pub fn replay(
    trace: &[u8],
    room: &mut [u8],
    memory: &mut [u8],
    output: &mut [u8],
    answers: &mut [u32],
) -> Replay {
    // Read into a room apart, since a short answer list comes after the room and changes nothing.
    let mut apart = room.to_vec();
    let reading = read(trace, &mut apart);
    if reading.number != DONE {
        return Replay::refused(reading.number, reading.block);
    }
    if (answers.len() as u64) < reading.events {
        return Replay::refused(ANSWERS_SHORT, 0);
    }
    room.copy_from_slice(&apart);
    let (mut bench, number) = Bench::new(reading.base, reading.window.into());
    assert_eq!(number, DONE, "the window of a trace is allowed");
    let list = &room[..reading.bytes as usize];
    for (event, answer) in events(list).zip(answers) {
        *answer = event.call(&mut bench, memory, output).number;
    }
    Replay {
        number: DONE,
        block: 0,
        bytes: reading.bytes,
        events: reading.events,
        bench,
    }
}
