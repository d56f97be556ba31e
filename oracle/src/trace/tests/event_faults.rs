//! Event faults: headers, bytes no event can have there, and cut events.

use super::{read, trace};
use crate::trace::block;

#[test]
fn headers_cut() {
    for used in 1..6 {
        assert_eq!(read(&block::all(&[0, 0, 0, 0, 63][..used])), (22, 0));
    }
    assert_eq!(read(&block::all(&[0, 0, 0, 0, 63, 0])), (0, 0));
}

#[test]
fn windows_not_allowed() {
    for (base, less_one, number) in [
        (0_u32, 63_u16, 0),
        (0, 59, 22),
        (0, 0, 22),
        (0, 64, 22),
        (0, 65, 22),
        (0, 67, 0),
        (0, 65_535, 0),
        (0, 65_534, 22),
        (1, 63, 22),
        (2, 63, 22),
        (4, 63, 0),
        (0xFFFF_FFC0, 63, 0),
        (0xFFFF_FFC4, 63, 22),
        (0xFFFF_0000, 65_535, 0),
        (0xFFFF_0004, 65_535, 22),
    ] {
        let data = [&base.to_le_bytes()[..], &less_one.to_le_bytes(), &[4]].concat();
        assert_eq!(read(&block::all(&data)), (number, 0), "{base:x} {less_one}");
    }
}

#[test]
fn unknown_first_bytes_are_their_blocks_fault() {
    // 498 events in block 0, 504 in each other one.
    for (place, block) in [
        (0, 0),
        (497, 0),
        (498, 1),
        (1_001, 1),
        (1_002, 2),
        (1_099, 2),
    ] {
        for first in [0, 5, 0x80, 0xFF] {
            let mut list = [4; 1_100];
            list[place] = first;
            assert_eq!(read(&trace(&list)), (22, block), "{place}");
        }
    }
}

#[test]
fn an_unknown_byte_inside_an_event_is_none() {
    let list = [&[2, 9, 9, 9, 9, 3, 2, 0, 0, 0, 0, 0xFF][..], &[1; 9]].concat();
    assert_eq!(read(&trace(&list)), (0, 0));
}

#[test]
fn cut_events_are_the_last_blocks_fault() {
    // A frame that starts in block 0 and is cut in block 2.
    let mut list = vec![3];
    list.extend(1_100_u32.to_le_bytes());
    list.extend([0; 1_099]);
    assert_eq!(read(&trace(&list)), (22, 2));
    list.push(0);
    assert_eq!(read(&trace(&list)), (0, 0));
    // A field that is cut behind the last byte of a full block.
    for (cut, number) in [(1, 22), (4, 22), (5, 0)] {
        let mut list = vec![4; 498 - cut];
        list.extend(&[2, 0, 0, 0, 0][..cut]);
        let trace = trace(&list);
        assert_eq!(trace.len(), 512);
        assert_eq!(read(&trace), (number, 0));
    }
    for cut in 1..9 {
        assert_eq!(read(&trace(&[1; 9][..cut])), (22, 0));
    }
    for cut in 1..7 {
        assert_eq!(read(&trace(&[3, 2, 0, 0, 0, 0, 0][..cut])), (22, 0));
    }
}

#[test]
fn a_frame_of_any_length_is_cut_if_it_is_not_there() {
    for length in [1, 504, 65_536, 0x7FFF_FFFF, u32::MAX] {
        let list = [&[3][..], &length.to_le_bytes()].concat();
        assert_eq!(read(&trace(&list)), (22, 0));
    }
}
