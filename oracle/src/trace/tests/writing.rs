//! Writing: what is refused, and that reading gives the same back.

use super::HEADER;
use crate::trace::{block, read, write, Reading, Writing};

fn refused(number: u32) -> Writing {
    Writing { number, blocks: 0 }
}

#[test]
fn the_empty_list() {
    let mut room = [0xEE; 520];
    let written = write(0x0400_0000, 4_096, &[], &mut room);
    assert_eq!((written.number, written.blocks), (0, 1));
    assert_eq!(room[..10], [&[0, 0, 6, 0][..], &HEADER].concat());
    assert!(room[10..508].iter().all(|byte| *byte == 0));
    assert_eq!(room[512..], [0xEE; 8]);
}

#[test]
fn reading_returns_the_same() {
    for length in [1, 497, 498, 499, 1_001, 1_002, 1_003] {
        let list = vec![4; length];
        let mut room = vec![0xEE; 2_048];
        let written = write(0xFFFF_0000, 65_536, &list, &mut room);
        let trace = &room[..512 * written.blocks as usize];
        let mut events = vec![0; length];
        let wanted = Reading {
            number: 0,
            block: 0,
            base: 0xFFFF_0000,
            window: 65_536,
            bytes: length as u64,
            events: length as u64,
        };
        assert_eq!(read(trace, &mut events), wanted);
        assert_eq!(events, list);
    }
}

#[test]
fn refusals_in_their_order() {
    let mut room = [0xEE; 512];
    for (list, window, lent, number) in [
        (&[4, 5][..], 60, 0, 25),
        (&[4, 5], 64, 512, 25),
        (&[3, 1, 0, 0, 0], 64, 512, 25),
        (&[4, 4], 60, 0, 26),
        (&[4, 4], 0, 512, 26),
        (&[4, 4], 65_540, 512, 26),
        (&[4, 4], u32::MAX, 512, 26),
        (&[4, 4], 64, 511, 28),
        (&[4; 499], 64, 512, 28),
    ] {
        let before = room;
        assert_eq!(write(0, window, list, &mut room[..lent]), refused(number));
        assert_eq!(room, before);
    }
    assert_eq!(write(0, 64, &[4; 498], &mut room).number, 0);
}

#[test]
fn at_most_65_536_blocks() {
    let list = vec![4; 33_030_139];
    assert_eq!(write(0, 64, &list, &mut []), refused(27));
    assert_eq!(write(2, 64, &list, &mut []), refused(26));
    assert_eq!(write(0, 64, &list[1..], &mut []), refused(28));
    let mut room = vec![0; 65_536 * block::SIZE];
    let written = write(0, 64, &list[1..], &mut room);
    assert_eq!((written.number, written.blocks), (0, 65_536));
    assert_eq!(room[65_535 * 512..][..4], [0xFF, 0xFF, 0xF8, 0x01]);
}
