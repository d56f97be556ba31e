//! Examples worked out by hand from the wish and docs/TRACE.md.

mod blocks;
mod event_faults;
mod lists;
mod order;
mod reading;
mod replaying;
mod writing;

use super::block;

/// A header of the window at 0x04000000 of 4,096 bytes.
const HEADER: [u8; 6] = [0x00, 0x00, 0x00, 0x04, 0xFF, 0x0F];

/// The blocks of this header and these event bytes, right or not.
fn trace(events: &[u8]) -> Vec<u8> {
    block::all(&[&HEADER, events].concat())
}

/// Makes every whole block's check right again.
fn checked(mut trace: Vec<u8>) -> Vec<u8> {
    for block in trace.chunks_exact_mut(block::SIZE) {
        block::put_check(block);
    }
    trace
}

/// The number and the block that reading a trace gives, with more room than any of these needs.
fn read(trace: &[u8]) -> (u32, u64) {
    let mut room = vec![0xEE; 4_096];
    let reading = super::read(trace, &mut room);
    if reading.number != 0 {
        let none = super::Reading {
            number: reading.number,
            block: reading.block,
            ..super::Reading::default()
        };
        assert_eq!(reading, none);
        assert!(room.iter().all(|byte| *byte == 0xEE));
    }
    (reading.number, reading.block)
}
