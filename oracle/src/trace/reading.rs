//! "Reading gives the window and events or the first bad block with its reason, tested in the order
//! length of block, number, check, used length, zero fill, event, or last refuses too little room."

use super::block::{self, number};
use super::list::{front, Front};
use super::{Header, BLOCKS_MOST};
use crate::numbers::{
    BLOCK_CHECK, BLOCK_EVENT, BLOCK_FILL, BLOCK_LENGTH, BLOCK_NUMBER, BLOCK_USED, DONE,
    READING_ROOM,
};

/// What is in a trace without a bad block.
pub struct Content {
    pub header: Header,
    /// The event data behind the header.
    pub events: Vec<u8>,
    pub count: u64,
}

/// The first bad block and its reason.
#[derive(Clone, Copy, Debug, PartialEq, Eq)]
pub struct Fault {
    pub block: usize,
    pub reason: u32,
}

/// What a reading finds; but for number and block all is 0 if it is refused.
#[derive(Clone, Copy, Debug, Default, PartialEq, Eq)]
pub struct Reading {
    pub number: u32,
    pub block: u64,
    pub base: u32,
    pub window: u32,
    pub bytes: u64,
    pub events: u64,
}

/// Puts the event bytes of a trace at the front of the room and leaves its rest. A refusal changes
/// nothing.
pub fn read(trace: &[u8], room: &mut [u8]) -> Reading {
    let content = match content(trace) {
        Ok(content) => content,
        Err(fault) => {
            return Reading {
                number: fault.reason,
                block: fault.block as u64,
                ..Reading::default()
            }
        }
    };
    let length = content.events.len();
    if room.len() < length {
        return Reading {
            number: READING_ROOM,
            ..Reading::default()
        };
    }
    room[..length].copy_from_slice(&content.events);
    Reading {
        number: DONE,
        block: 0,
        base: content.header.base,
        window: content.header.length,
        bytes: length as u64,
        events: content.count,
    }
}

/// The content of a trace, whatever the room, or its first bad block.
pub fn content(trace: &[u8]) -> Result<Content, Fault> {
    let mut data = Data::default();
    // "An empty file is a bad block 0 by its length."
    let blocks = trace.len().div_ceil(block::SIZE).max(1);
    for place in 0..blocks {
        let start = place * block::SIZE;
        let bytes = &trace[start..trace.len().min(start + block::SIZE)];
        let last = place + 1 == blocks;
        test(bytes, place, last, &mut data).map_err(|reason| Fault {
            block: place,
            reason,
        })?;
    }
    let header = data.header.expect("the last block has been tested");
    let mut events = data.bytes;
    events.drain(..Header::SIZE);
    Ok(Content {
        header,
        events,
        count: data.count,
    })
}

/// The tests of one block in their order; `data` is what the blocks before it held.
fn test(bytes: &[u8], place: usize, last: bool, data: &mut Data) -> Result<(), u32> {
    if bytes.len() != block::SIZE {
        return Err(BLOCK_LENGTH);
    }
    // From block 65,536 on no number of 2 bytes is the block's.
    if place >= BLOCKS_MOST || number(&bytes[block::NUMBER]) != place as u64 {
        return Err(BLOCK_NUMBER);
    }
    if number(&bytes[block::CHECK]) != block::check(bytes) {
        return Err(BLOCK_CHECK);
    }
    // "Used length (1 to 504)"; "only the last may be part-filled".
    let used = number(&bytes[block::USED]) as usize;
    let least = if last { 1 } else { block::DATA_MOST };
    if !(least..=block::DATA_MOST).contains(&used) {
        return Err(BLOCK_USED);
    }
    let (taken, unused) = bytes[block::DATA].split_at(used);
    if unused.iter().any(|byte| *byte != 0) {
        return Err(BLOCK_FILL);
    }
    data.take(taken, last)
}

/// The event data met so far, and how much of it is known to be events.
#[derive(Default)]
struct Data {
    bytes: Vec<u8>,
    header: Option<Header>,
    /// Where the next event starts; behind the bytes if the last one goes on.
    next: usize,
    count: u64,
}

impl Data {
    /// Takes the data of one block more.
    fn take(&mut self, taken: &[u8], last: bool) -> Result<(), u32> {
        self.bytes.extend(taken);
        if self.header.is_none() {
            // "A header cut or not allowed is an event fault."
            self.header = Some(Header::read(&self.bytes).ok_or(BLOCK_EVENT)?);
            self.next = Header::SIZE;
        }
        while self.next < self.bytes.len() {
            match front(&self.bytes[self.next..]) {
                Front::Whole(size) => {
                    self.next += size;
                    self.count += 1;
                }
                // "A cut event [is] the last block's [fault]."
                Front::Cut if last => return Err(BLOCK_EVENT),
                Front::Cut => break,
                // The byte stands in this block: an event that began before was looked at there.
                Front::None => return Err(BLOCK_EVENT),
            }
        }
        Ok(())
    }
}
