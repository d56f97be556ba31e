//! Import: events and times, and what is refused.

use super::{message, HEADER};
use crate::capture::import::has_length;
use crate::capture::{import, Imported};
use crate::check;

/// The number that a file is answered with, both rooms having more than any of these needs.
fn number(file: &[u8]) -> u32 {
    let (mut events, mut times) = (vec![0xEE; 4_096], vec![0xDD; 256]);
    let imported = import(file, &mut events, &mut times);
    if imported.number != 0 {
        assert_eq!((imported.bytes, imported.frames), (0, 0));
        assert!(events.iter().all(|byte| *byte == 0xEE));
        assert!(times.iter().all(|byte| *byte == 0xDD));
    }
    imported.number
}

/// Both records of the file by hand: the 60 bytes, and none.
fn file() -> Vec<u8> {
    let mut file = HEADER.to_vec();
    file.extend([0, 0, 0, 0, 3, 0, 0, 0, 60, 0, 0, 0, 60, 0, 0, 0]);
    file.extend(message());
    file.extend([1, 2, 3, 4, 0x40, 0x42, 0x0F, 0, 0, 0, 0, 0, 0, 0, 0, 0]);
    file
}

#[test]
fn a_file_by_hand() {
    let (mut events, mut times) = ([0xEE; 80], [0xDD; 17]);
    let imported = Imported {
        number: 0,
        bytes: 78,
        frames: 2,
    };
    assert_eq!(import(&file(), &mut events, &mut times), imported);
    let mut wanted = vec![3, 64, 0, 0, 0];
    wanted.extend(check::closed(&message()));
    // The check sequence of no bytes is 0.
    wanted.extend([3, 4, 0, 0, 0, 0, 0, 0, 0]);
    assert_eq!(events[..78], wanted);
    assert_eq!(events[78..], [0xEE; 2]);
    let wanted = [0, 0, 0, 0, 3, 0, 0, 0, 1, 2, 3, 4, 0x40, 0x42, 0x0F, 0];
    assert_eq!(times[..16], wanted);
    assert_eq!(times[16], 0xDD);
}

#[test]
fn the_header_alone_and_cut() {
    assert_eq!(number(&HEADER), 0);
    for length in 0..24 {
        assert_eq!(number(&HEADER[..length]), 31);
        assert_eq!(number(&vec![0; length]), 31);
    }
}

#[test]
fn the_fields_of_the_header() {
    for place in 0..24 {
        for bit in 0..8 {
            let mut file = file();
            file[place] ^= 1 << bit;
            let wanted = match place {
                0..=3 => 32,
                4..=7 => 33,
                8..=19 => 0,
                _ => 34,
            };
            assert_eq!(number(&file), wanted, "{place} {bit}");
        }
    }
    let with = |place: usize, bytes: [u8; 4]| {
        let mut file = file();
        file[place..place + 4].copy_from_slice(&bytes);
        number(&file)
    };
    // Highest byte first, and nanoseconds both ways.
    assert_eq!(with(0, [0xA1, 0xB2, 0xC3, 0xD4]), 32);
    assert_eq!(with(0, [0x4D, 0x3C, 0xB2, 0xA1]), 32);
    assert_eq!(with(0, [0xA1, 0xB2, 0x3C, 0x4D]), 32);
    // 4.2, 2.3, 3.4.
    assert_eq!(with(4, [4, 0, 2, 0]), 33);
    assert_eq!(with(4, [2, 0, 3, 0]), 33);
    assert_eq!(with(4, [3, 0, 4, 0]), 33);
    for link in [0, 2, 0x0001_0001, 0x0100_0000, 0x1000_0001_u32] {
        assert_eq!(with(20, link.to_le_bytes()), 34);
    }
}

#[test]
fn every_cut_inside_a_record() {
    let file = file();
    for length in 24..=file.len() {
        let whole = [24, 100, 116].contains(&length);
        assert_eq!(number(&file[..length]), if whole { 0 } else { 35 });
    }
}

#[test]
fn lengths_of_a_record() {
    let with = |captured: u32, original: u32| {
        let mut file = file();
        file[32..36].copy_from_slice(&captured.to_le_bytes());
        file[36..40].copy_from_slice(&original.to_le_bytes());
        number(&file)
    };
    assert_eq!(with(60, 61), 36);
    assert_eq!(with(60, 59), 36);
    assert_eq!(with(60, 0x0100_003C), 36);
    // 76 bytes are left, and no more.
    assert_eq!(with(76, 76), 0);
    assert_eq!(with(76, 77), 36);
    assert_eq!(with(77, 77), 35);
    assert_eq!(with(77, 76), 35);
    assert_eq!(with(u32::MAX, u32::MAX), 35);
    assert_eq!(with(u32::MAX - 15, u32::MAX - 15), 35);
}

#[test]
fn too_little_room() {
    let file = file();
    for (events, times, number) in [
        (78, 16, 0),
        (77, 16, 37),
        (78, 15, 37),
        (78, 8, 37),
        (0, 0, 37),
        (100, 0, 37),
        (0, 100, 37),
    ] {
        let (mut events, mut times) = (vec![0xEE; events], vec![0xDD; times]);
        let before = (events.clone(), times.clone());
        assert_eq!(import(&file, &mut events, &mut times).number, number);
        assert_eq!((events, times) == before, number == 37);
    }
    assert_eq!(import(&HEADER, &mut [], &mut []).number, 0);
}

#[test]
fn frames_without_a_length_of_32_bits() {
    assert!(has_length(4_294_967_291));
    assert!(!has_length(4_294_967_292));
    assert!(!has_length(4_294_967_295));
}
