//! The packet status word of a delivery, whole, by why the frame was taken.

use super::{frame, Trial, CONTROL, GRANTED, HASH_HIGH, HASH_LOW, NEXT_ENABLE, OWN, POLLING};
use crate::device::Pair;

const BROADCAST: [u8; 6] = [0xFF; 6];
/// Index 3: bit 3 of the low register.
const PAUSE: [u8; 6] = [0x01, 0x80, 0xC2, 0x00, 0x00, 0x01];
const OTHER: [u8; 6] = [2, 0, 0, 0, 0, 2];

/// MAC control: all-multicast, the hash mode, receive-all.
const ALL_MULTICAST: u32 = 0x000A_0000;
const HASH: u32 = 0x0002_0000;
const RECEIVE_ALL: u32 = 0x8000_0000;

/// A ring of four granted descriptors from 0 on with polling, buffers from 0x1000 on that take every
/// frame; the hash takes the PAUSE address if it is asked.
fn receiver(control: u32) -> Trial {
    let mut trial = Trial::new(0x4000);
    for place in 0..4 {
        let next = (16 * ((place + 1) % 4)) | POLLING;
        let start = 0x1000 + 0x800 * place;
        let address = 16 * place as usize;
        trial.descriptor(address, 0x7FF | NEXT_ENABLE, start, next, GRANTED);
    }
    trial.bench.write(CONTROL, control);
    trial.bench.write(HASH_HIGH, 0);
    trial.bench.write(HASH_LOW, 1 << 3);
    trial.start_receiving(POLLING);
    trial
}

/// The status word that one frame of 64 bytes leaves.
fn word(control: u32, destination: [u8; 6]) -> u32 {
    let mut trial = receiver(control);
    assert_eq!(trial.receive(&frame(destination, 64)), 0);
    trial.get(12)
}

#[test]
fn the_words_of_the_five_kinds() {
    assert_eq!(word(0, OWN), 0x0000_0040);
    assert_eq!(word(0, BROADCAST), 0x1000_0040);
    assert_eq!(word(ALL_MULTICAST, PAUSE), 0x0800_0040);
    assert_eq!(word(HASH, PAUSE), 0x0800_0040);
    assert_eq!(word(RECEIVE_ALL, OTHER), 0x0000_0040);
}

#[test]
fn receive_all_leaves_no_bit_whatever_the_address_is() {
    for mode in [0, ALL_MULTICAST, HASH] {
        for destination in [OWN, BROADCAST, PAUSE, OTHER] {
            assert_eq!(word(RECEIVE_ALL | mode, destination), 0x0000_0040);
        }
    }
}

#[test]
fn own_and_broadcast_do_not_go_by_the_mode() {
    for mode in 0..8 {
        assert_eq!(word(mode << 17, OWN), 0x0000_0040);
        assert_eq!(word(mode << 17, BROADCAST), 0x1000_0040);
    }
}

#[test]
fn broadcast_and_group_come_before_the_station() {
    for (station, control, wanted) in [
        (BROADCAST, 0, 0x1000_0040),
        (BROADCAST, ALL_MULTICAST, 0x1000_0040),
        (PAUSE, ALL_MULTICAST, 0x0800_0040),
        (PAUSE, HASH, 0x0800_0040),
        (PAUSE, RECEIVE_ALL, 0x0000_0040),
    ] {
        let mut trial = receiver(control);
        let [first, second, third, fourth, fifth, sixth] = station;
        let low = u32::from_le_bytes([first, second, third, fourth]);
        trial.bench.write(0x408, low);
        trial
            .bench
            .write(0x404, u32::from_le_bytes([fifth, sixth, 0, 0]));
        assert_eq!(trial.receive(&frame(station, 64)), 0);
        assert_eq!(trial.get(12), wanted);
    }
}

#[test]
fn the_length_stands_beside_the_bit() {
    for (length, wanted) in [
        (64, 0x1000_0040),
        (65, 0x1000_0041),
        (1_024, 0x1000_0400),
        (1_518, 0x1000_05EE),
    ] {
        let mut trial = receiver(0);
        assert_eq!(trial.receive(&frame(BROADCAST, length)), 0);
        assert_eq!(trial.get(12), wanted);
    }
}

#[test]
fn nothing_of_the_word_before_is_left() {
    for (destination, wanted) in [(OWN, 0x0000_0040), (BROADCAST, 0x1000_0040)] {
        let mut trial = receiver(0);
        trial.put(12, 0xFFFF_FFFF);
        assert_eq!(trial.receive(&frame(destination, 64)), 0);
        assert_eq!(trial.get(12), wanted);
    }
}

#[test]
fn only_the_status_word_and_the_buffer_change() {
    let mut trial = receiver(ALL_MULTICAST);
    let mut expected = trial.memory.clone();
    let sent = frame(PAUSE, 70);
    expected[0x1000..0x1046].copy_from_slice(&sent);
    expected[12..16].copy_from_slice(&[70, 0, 0, 8]);
    assert_eq!(trial.receive(&sent), 0);
    assert_eq!(trial.memory, expected);
}

#[test]
fn each_frame_of_a_burst_has_its_own_word() {
    let store: Vec<u8> = [OWN, BROADCAST, PAUSE, OTHER]
        .iter()
        .flat_map(|destination| frame(*destination, 64))
        .collect();
    let pairs = [192, 128, 64, 0].map(|start| Pair { start, length: 64 });
    for (control, answers, words) in [
        (0, [6, 6, 0, 0], [0x1000_0040, 0x0000_0040, GRANTED]),
        (HASH, [6, 0, 0, 0], [0x0800_0040, 0x1000_0040, 0x0000_0040]),
        (RECEIVE_ALL, [0; 4], [0x0000_0040; 3]),
    ] {
        let mut trial = receiver(control);
        let mut found = [99; 4];
        let memory = &mut trial.memory;
        let number = trial.bench.burst(memory, &store, &pairs, &mut found);
        assert_eq!((number, found), (0, answers));
        assert_eq!([12, 28, 44].map(|place| trial.get(place)), words);
    }
}

#[test]
fn a_grant_leaves_no_bit() {
    for destination in [OWN, BROADCAST, PAUSE] {
        let mut trial = receiver(ALL_MULTICAST);
        assert_eq!(trial.receive(&frame(destination, 64)), 0);
        assert_eq!(trial.bench.grant(&mut trial.memory, 0), 0);
        assert_eq!(trial.get(12), 0x0001_0000);
    }
}

#[test]
fn a_send_leaves_zeros() {
    let mut trial = receiver(0);
    trial.put(0, 64);
    trial.put(12, 0x1801_0040);
    trial.start_sending(0);
    let (number, sent) = trial.send();
    assert_eq!((number, sent.len()), (0, 68));
    assert_eq!(trial.get(12), 0);
}

#[test]
fn a_reading_shows_a_frame_of_every_kind() {
    for (control, destination) in [
        (0, OWN),
        (0, BROADCAST),
        (ALL_MULTICAST, PAUSE),
        (HASH, PAUSE),
        (RECEIVE_ALL, BROADCAST),
    ] {
        let mut trial = receiver(control);
        let sent = frame(destination, 100);
        assert_eq!(trial.receive(&sent), 0);
        assert_eq!(trial.bench.show(&trial.memory, 0), (0, &sent[..96]));
    }
}
