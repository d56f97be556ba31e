//! Examples worked out by hand from the wish and docs/CAPTURE.md.

mod exporting;
mod importing;
mod lists;
mod order;
mod there_and_back;

use super::{Time, Timed};
use crate::check;

/// The header of a capture, byte by byte: magic, version 2.4, zone, accuracy, snap length, link type.
const HEADER: [u8; 24] = [
    0xD4, 0xC3, 0xB2, 0xA1, 2, 0, 4, 0, 0, 0, 0, 0, 0, 0, 0, 0, 0xFF, 0xFF, 0, 0, 1, 0, 0, 0,
];

fn time(seconds: u32, microseconds: u32) -> Time {
    Time {
        seconds,
        microseconds,
    }
}

/// 60 bytes to all stations from 02-00-00-00-00-01, EtherType 88B5, then zeros.
fn message() -> Vec<u8> {
    let mut message = vec![0xFF; 6];
    message.extend([2, 0, 0, 0, 0, 1, 0x88, 0xB5]);
    message.resize(60, 0);
    message
}

/// A right frame of this many bytes and its time.
fn timed(seconds: u32, microseconds: u32, length: usize) -> Timed {
    Timed {
        time: time(seconds, microseconds),
        frame: check::closed(&vec![0x5A; length - 4]),
    }
}
