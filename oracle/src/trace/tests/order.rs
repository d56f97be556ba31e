//! Two faults at once: the first block, and in it the first test, decides.

use super::{checked, read, trace};

/// Puts one fault into a block of a trace with three; the check is not made right.
fn spoil(trace: &mut [u8], block: usize, number: u32) {
    let bytes = &mut trace[512 * block..512 * (block + 1)];
    match number {
        18 => bytes[1] = 0x40,
        20 => bytes[2..4].copy_from_slice(&[0xF9, 0x01]),
        // Only the last block has a fill, of which this is the last byte.
        21 => bytes[507] = 1,
        // An event starts at every byte but the header's.
        22 => bytes[10] = 9,
        _ => panic!("no fault of a byte"),
    }
}

#[test]
fn the_earlier_block_comes_first() {
    let good = trace(&[4; 1_100]);
    for (first, second) in [(22, 18), (22, 20), (20, 22), (18, 22), (20, 18), (22, 21)] {
        for (early, late) in [(0, 2), (1, 2)] {
            let mut trace = good.clone();
            spoil(&mut trace, early, first);
            spoil(&mut trace, late, second);
            assert_eq!(read(&checked(trace)), (first, early as u64));
        }
    }
    // A wrong check behind an event fault, and the reverse.
    let mut trace = good.clone();
    spoil(&mut trace, 0, 22);
    let mut trace = checked(trace);
    trace[512 + 508] ^= 1;
    assert_eq!(read(&trace), (22, 0));
    let mut trace = good;
    spoil(&mut trace, 1, 22);
    let mut trace = checked(trace);
    trace[508] ^= 1;
    assert_eq!(read(&trace), (19, 0));
}

#[test]
fn in_one_block_the_earlier_test_comes_first() {
    let good = trace(&[4; 1_100]);
    for first in [18, 20, 21, 22] {
        for second in [18, 20, 21, 22] {
            let mut trace = good.clone();
            spoil(&mut trace, 2, first);
            spoil(&mut trace, 2, second);
            // Without a right check, the number alone comes before it.
            let wanted = first.min(second).min(19);
            assert_eq!(read(&trace), (wanted, 2));
            assert_eq!(read(&checked(trace)), (first.min(second), 2));
        }
    }
}

#[test]
fn a_short_last_block_comes_behind_those_before() {
    let mut trace = trace(&[4; 1_100]);
    trace.truncate(1_500);
    assert_eq!(read(&trace), (17, 2));
    spoil(&mut trace, 1, 22);
    assert_eq!(read(&checked(trace)), (22, 1));
}

#[test]
fn a_cut_event_is_not_met_before_the_last_block() {
    // A grant that begins in block 0 and would be cut there; block 1 has another fault.
    let mut list = vec![4; 497];
    list.extend([2, 0, 0, 0]);
    let mut trace = trace(&list);
    assert_eq!(read(&trace), (22, 1));
    trace[512] ^= 1;
    assert_eq!(read(&trace), (18, 1));
    assert_eq!(read(&trace[..512]), (22, 0));
    assert_eq!(read(&trace[..600]), (17, 1));
}
