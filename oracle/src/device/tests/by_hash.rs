//! Group addresses in the mode of perfect address and multicast hash.

use super::{frame, Trial, CONTROL, GRANTED, HASH_HIGH, HASH_LOW, NEXT_ENABLE, OWN, RESET_STATUS};
use crate::device::{Bench, Pair};

/// MAC control with this filter mode.
const HASH: u32 = 0x0002_0000;
const RX_CURR_DONE: u32 = 0x0000_8000;

/// Index 3: bit 3 of the low register.
const PAUSE: [u8; 6] = [0x01, 0x80, 0xC2, 0x00, 0x00, 0x01];
/// Index 62: bit 30 of the high register.
const ALL_NODES: [u8; 6] = [0x33, 0x33, 0x00, 0x00, 0x00, 0x01];

/// A ring of one, granted, on a station in the hash mode with these registers.
fn hashing(high: u32, low: u32) -> Trial {
    let mut trial = Trial::new(0x400);
    trial.descriptor(0, 0x100 | NEXT_ENABLE, 0x100, 0, GRANTED);
    trial.bench.write(CONTROL, HASH);
    trial.bench.write(HASH_HIGH, high);
    trial.bench.write(HASH_LOW, low);
    trial.start_receiving(0);
    trial
}

#[test]
fn a_frame_is_taken_exactly_by_its_own_bit() {
    for (group, high, low) in [(PAUSE, 0, 1 << 3), (ALL_NODES, 1 << 30, 0)] {
        assert_eq!(hashing(high, low).receive(&frame(group, 64)), 0);
        assert_eq!(hashing(!high, !low).receive(&frame(group, 64)), 6);
        // The other register does not matter.
        assert_eq!(hashing(low, high).receive(&frame(group, 64)), 6);
        assert_eq!(hashing(!low, !high).receive(&frame(group, 64)), 0);
    }
}

#[test]
fn a_frame_taken_is_delivered_as_a_group() {
    let mut trial = hashing(0, 1 << 3);
    let mut expected = trial.memory.clone();
    let sent = frame(PAUSE, 70);
    expected[0x100..0x146].copy_from_slice(&sent);
    expected[12..16].copy_from_slice(&[70, 0, 0, 8]);
    assert_eq!(trial.receive(&sent), 0);
    assert_eq!(trial.memory, expected);
    assert_eq!(trial.status(), RESET_STATUS | RX_CURR_DONE);
    // The descriptor is returned now: the next one is lost.
    assert_eq!(trial.receive(&sent), 8);
}

#[test]
fn a_frame_turned_away_changes_nothing() {
    let mut trial = hashing(u32::MAX, !(1 << 3));
    trial.put(12, 0);
    let before = trial.clone();
    assert_eq!(trial.receive(&frame(PAUSE, 64)), 6);
    assert_eq!(trial.bench, before.bench);
    assert_eq!(trial.memory, before.memory);
}

#[test]
fn length_and_check_come_before_the_hash() {
    let mut trial = hashing(0, 0);
    let mut wrong = frame(PAUSE, 64);
    wrong[30] ^= 4;
    assert_eq!(trial.receive(&frame(PAUSE, 63)), 4);
    assert_eq!(trial.receive(&wrong), 5);
    assert_eq!(trial.receive(&frame(PAUSE, 64)), 6);
}

#[test]
fn after_reset_the_hash_takes_no_group() {
    let mut trial = hashing(0, 0);
    let (reset, _) = Bench::new(0, 0x400);
    assert_eq!(reset.filter().hash_high, 0);
    assert_eq!(reset.filter().hash_low, 0);
    assert_eq!(trial.receive(&frame(PAUSE, 64)), 6);
    assert_eq!(trial.receive(&frame(ALL_NODES, 64)), 6);
    assert_eq!(trial.receive(&frame([0xFF; 6], 64)), 0);
}

#[test]
fn the_own_address_and_the_other_modes_do_not_ask() {
    assert_eq!(hashing(0, 0).receive(&frame(OWN, 64)), 0);
    let strange = frame([2, 0, 0, 0, 0, 2], 64);
    assert_eq!(hashing(u32::MAX, u32::MAX).receive(&strange), 6);
    let answers = |high, low| -> Vec<u32> {
        let mut answers = Vec::new();
        for mode in 0..8 {
            let mut trial = hashing(high, low);
            trial.bench.write(CONTROL, mode << 17);
            answers.push(trial.receive(&frame(PAUSE, 64)));
        }
        answers
    };
    assert_eq!(answers(0, 1 << 3), [6, 0, 6, 6, 6, 0, 6, 6]);
    assert_eq!(answers(0, 0), [6, 6, 6, 6, 6, 0, 6, 6]);
}

#[test]
fn the_registers_are_read_at_each_frame() {
    let mut trial = hashing(0, 0);
    assert_eq!(trial.receive(&frame(PAUSE, 64)), 6);
    assert_eq!(trial.bench.write(HASH_LOW, 1 << 3), 0);
    assert_eq!(trial.receive(&frame(PAUSE, 64)), 0);
    assert_eq!(trial.bench.write(HASH_LOW, 0), 0);
    assert_eq!(trial.receive(&frame(PAUSE, 64)), 6);
}

#[test]
fn inside_a_burst_each_frame_asks_by_itself() {
    let mut trial = hashing(1 << 30, 0);
    let store = [frame(PAUSE, 64), frame(ALL_NODES, 64)].concat();
    let pairs = [0, 64, 0, 64].map(|start| Pair { start, length: 64 });
    let mut answers = [99; 4];
    let number = trial
        .bench
        .burst(&mut trial.memory, &store, &pairs, &mut answers);
    assert_eq!((number, answers), (0, [6, 0, 6, 8]));
}
