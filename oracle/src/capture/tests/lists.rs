//! The list of frames.

use super::{time, timed};
use crate::capture::{list, Timed};

#[test]
fn entries_byte_by_byte() {
    let frames = [
        Timed {
            time: time(0x0102_0304, 0xA0B0_C0D0),
            frame: vec![7, 8, 9],
        },
        Timed {
            time: time(0, 1_000_000),
            frame: vec![],
        },
    ];
    let bytes = [
        4, 3, 2, 1, 0xD0, 0xC0, 0xB0, 0xA0, 3, 0, 0, 0, 7, 8, 9, //
        0, 0, 0, 0, 0x40, 0x42, 0x0F, 0, 0, 0, 0, 0,
    ];
    assert_eq!(list::made(&frames), bytes);
    assert_eq!(list::frames(&bytes), Some(frames.to_vec()));
    assert_eq!(list::frames(&[]), Some(vec![]));
    assert_eq!(list::made(&[]), []);
}

#[test]
fn every_cut_inside_an_entry_is_no_list() {
    let bytes = list::made(&[timed(1, 2, 64), timed(3, 4, 4)]);
    let whole = [0, 76, 92];
    for length in 0..=bytes.len() {
        let frames = list::frames(&bytes[..length]);
        let wanted = whole.iter().position(|end| *end == length);
        assert_eq!(frames.map(|frames| frames.len()), wanted, "{length}");
    }
}

#[test]
fn lengths_past_the_end_are_no_list() {
    // Also one with which the head's 12 bytes would be 0 in 32 bits.
    for length in [2, 0x100, 0x8000_0001, 0xFFFF_FFF4, 0xFFFF_FFFF_u32] {
        let mut bytes = vec![0; 8];
        bytes.extend(length.to_le_bytes());
        bytes.push(0);
        assert_eq!(list::frames(&bytes), None, "{length}");
    }
}
