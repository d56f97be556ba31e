//! "Writing is refused exactly if its event list is not of its form in docs/, if base and length are
//! no allowed window, or if over 65,536 blocks or more room than lent is needed."

use super::block;
use super::list::{front, Front};
use super::{Header, BLOCKS_MOST};
use crate::numbers::{BLOCKS_OVER, DONE, LIST_FORM, WRITING_ROOM, WRITING_WINDOW};

/// What a writing answers; no blocks if it is refused.
#[derive(Clone, Copy, Debug, PartialEq, Eq)]
pub struct Writing {
    pub number: u32,
    pub blocks: u64,
}

/// Puts the blocks of a window and its events at the front of the room and leaves its rest. A
/// refusal changes nothing.
pub fn write(base: u32, window: u32, events: &[u8], room: &mut [u8]) -> Writing {
    match blocks(base, window, events, room.len()) {
        Err(number) => Writing { number, blocks: 0 },
        Ok((header, blocks)) => {
            let data = [&header.bytes(), events].concat();
            let trace = block::all(&data);
            room[..trace.len()].copy_from_slice(&trace);
            Writing {
                number: DONE,
                blocks: blocks as u64,
            }
        }
    }
}

/// The header and how many blocks are needed, or the first refusal.
fn blocks(base: u32, window: u32, events: &[u8], room: usize) -> Result<(Header, usize), u32> {
    let mut rest = events;
    while !rest.is_empty() {
        match front(rest) {
            Front::Whole(size) => rest = &rest[size..],
            Front::Cut | Front::None => return Err(LIST_FORM),
        }
    }
    let header = Header::allowed(base, window).ok_or(WRITING_WINDOW)?;
    let blocks = (Header::SIZE + events.len()).div_ceil(block::DATA_MOST);
    if blocks > BLOCKS_MOST {
        return Err(BLOCKS_OVER);
    }
    if block::SIZE * blocks > room {
        return Err(WRITING_ROOM);
    }
    Ok((header, blocks))
}
