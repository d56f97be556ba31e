//! The longest trace there is, and ones longer by a byte or a block.

use crate::compare::Comparison;
use oracle::tapes::{List, Tape};
use oracle::trace::{block, write, Event, Header, BLOCKS_MOST};

/// The most bytes of events that a trace can hold.
const MOST: usize = BLOCKS_MOST * block::DATA_MOST - Header::SIZE;

/// Lists of the most bytes and of one more, written; the trace read again, and with one block too
/// many. The refusals before that of too many blocks come first.
pub fn compare(comparison: &mut Comparison) -> Result<(), String> {
    let mut list = List {
        base: 0,
        window: 64,
        events: Event::list(&vec![Event::Send; MOST + 1]),
        // Enough for a block more than there can be.
        room: vec![0xA5; (BLOCKS_MOST + 1) * block::SIZE],
        damage: "none",
    };
    comparison.write(&list)?;
    list.room.clear();
    comparison.write(&list)?;
    list.window = 60;
    comparison.write(&list)?;
    list.events[MOST] = 5;
    comparison.write(&list)?;
    list.window = 64;
    comparison.write(&list)?;
    list.events.pop();
    list.room = vec![0xA5; BLOCKS_MOST * block::SIZE];
    comparison.write(&list)?;
    list.room.pop();
    comparison.write(&list)?;
    reading(comparison, list)
}

fn reading(comparison: &mut Comparison, list: List) -> Result<(), String> {
    let mut tape = Tape::new("large", HEADER, vec![0; 64], &[]);
    tape.bytes = vec![0; BLOCKS_MOST * block::SIZE];
    write(HEADER.base, HEADER.length, &list.events, &mut tape.bytes);
    let room = vec![0x5A; MOST];
    comparison.read(&tape, &room)?;
    comparison.read(&tape, &room[1..])?;
    // Block 65,536 has no number of its own: neither 0 nor any other.
    tape.bytes.extend(block::made(0, &[4]));
    comparison.read(&tape, &room)?;
    tape.bytes.pop();
    comparison.read(&tape, &room)
}

const HEADER: Header = Header {
    base: 0,
    length: 64,
};
