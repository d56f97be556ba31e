//! Reading of good traces, and each reason but the event's.

use super::{checked, read, trace, HEADER};
use crate::trace::{self, block, Reading};

#[test]
fn the_empty_list_is_one_block_of_a_header() {
    let trace = trace(&[]);
    assert_eq!(trace.len(), 512);
    let reading = trace::read(&trace, &mut []);
    let wanted = Reading {
        number: 0,
        block: 0,
        base: 0x0400_0000,
        window: 4_096,
        bytes: 0,
        events: 0,
    };
    assert_eq!(reading, wanted);
}

#[test]
fn events_come_to_the_front_of_the_room_and_the_rest_stays() {
    let list = [4, 2, 1, 2, 3, 4, 3, 0, 0, 0, 0];
    let mut room = [0xEE; 20];
    let reading = trace::read(&trace(&list), &mut room);
    assert_eq!((reading.number, reading.bytes, reading.events), (0, 11, 3));
    assert_eq!(room[..11], list);
    assert_eq!(room[11..], [0xEE; 9]);
}

#[test]
fn an_event_across_three_blocks() {
    let mut list = vec![3];
    list.extend(1_200_u32.to_le_bytes());
    list.extend((0..1_200).map(|place| place as u8));
    list.push(4);
    let mut room = vec![0; list.len()];
    let reading = trace::read(&trace(&list), &mut room);
    assert_eq!((reading.number, reading.events), (0, 2));
    assert_eq!(room, list);
}

#[test]
fn a_room_one_byte_short() {
    let list = [4; 498];
    let trace = trace(&list);
    assert_eq!(trace.len(), 512);
    let mut room = [0xEE; 498];
    assert_eq!(trace::read(&trace, &mut room[..497]).number, 23);
    assert_eq!(trace::read(&trace, &mut []).number, 23);
    assert_eq!(room, [0xEE; 498]);
    assert_eq!(trace::read(&trace, &mut room).number, 0);
    assert_eq!(room, list);
}

#[test]
fn lengths_of_blocks() {
    assert_eq!(read(&[]), (17, 0));
    let trace = trace(&[4; 1_100]);
    assert_eq!(read(&trace), (0, 0));
    for (length, block) in [
        (1, 0),
        (511, 0),
        (513, 1),
        (1_023, 1),
        (1_025, 2),
        (1_535, 2),
    ] {
        // What is left of the blocks before is full, and a send cannot be cut.
        assert_eq!(read(&trace[..length]), (17, block));
    }
    assert_eq!(read(&trace[..512]), (0, 0));
    assert_eq!(read(&trace[..1_024]), (0, 0));
    // With more behind it the third block is no longer the last, and part-filled.
    assert_eq!(read(&[&trace[..], &[0]].concat()), (20, 2));
    let full = super::trace(&[4; 498]);
    assert_eq!(read(&[&full[..], &[0]].concat()), (17, 1));
}

#[test]
fn numbers_of_blocks() {
    let good = trace(&[4; 1_100]);
    assert_eq!(good.len(), 3 * 512);
    for block in 0..3 {
        for wrong in [1, 256, 0x8000] {
            let mut trace = good.clone();
            let field = &mut trace[512 * block..512 * block + 2];
            let number = block as u16 ^ wrong;
            field.copy_from_slice(&number.to_le_bytes());
            assert_eq!(read(&trace), (18, block as u64));
            assert_eq!(read(&checked(trace)), (18, block as u64));
        }
    }
}

#[test]
fn checks_of_blocks() {
    let good = trace(&[4; 1_100]);
    for block in 0..3 {
        let place = 512 * block + 508;
        let field: [u8; 4] = good[place..place + 4].try_into().unwrap();
        let check = u32::from_le_bytes(field);
        for wrong in [check + 1, check + 65_521, check + 65_536, check ^ 1 << 31] {
            let mut trace = good.clone();
            trace[place..place + 4].copy_from_slice(&wrong.to_le_bytes());
            assert_eq!(read(&trace), (19, block as u64));
        }
    }
}

#[test]
fn used_lengths() {
    let good = trace(&[4; 1_100]);
    assert_eq!(good.len(), 3 * 512);
    for block in 0..3 {
        for used in [0, 505, 65_535, 503, 1] {
            let mut trace = good.clone();
            let place = 512 * block;
            trace[place + 2..place + 4].copy_from_slice(&u16::to_le_bytes(used));
            let wanted = match used {
                // The last block may be part-filled; then what was data is no zero fill, or the
                // fill that is taken for data no event.
                1 if block == 2 => 21,
                503 if block == 2 => 22,
                _ => 20,
            };
            assert_eq!(read(&checked(trace)), (wanted, block as u64), "{used}");
        }
    }
}

#[test]
fn zero_fill() {
    // Header and two sends stand in bytes 4 to 11.
    let good = trace(&[4, 4]);
    for place in 12..508 {
        let mut trace = good.clone();
        trace[place] = 1 << (place % 8);
        assert_eq!(read(&checked(trace)), (21, 0));
    }
    // A used length one less makes the last event's byte a part of the fill.
    let mut shorter = good.clone();
    shorter[2] -= 1;
    assert_eq!(read(&checked(shorter)), (21, 0));
    // One more takes a zero, which no event starts with.
    let mut longer = good;
    longer[2] += 1;
    assert_eq!(read(&checked(longer)), (22, 0));
}

#[test]
fn block_65_536_has_no_number() {
    let mut data = HEADER.to_vec();
    data.resize(65_536 * 504, 4);
    let mut trace = block::all(&data);
    let mut room = vec![0; data.len() - 6];
    let reading = trace::read(&trace, &mut room);
    assert_eq!((reading.number, reading.events), (0, 33_030_138));
    trace.extend(block::made(0, &[4]));
    assert_eq!(read(&trace), (18, 65_536));
    trace.pop();
    assert_eq!(read(&trace), (17, 65_536));
}
