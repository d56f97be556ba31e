//! The frames of a burst, in order, each on what the one before left.

use super::super::{frame, OWN, RESET_STATUS};
use super::{chain, pair};

const RX_CURR_DONE: u32 = 0x0000_8000;
const RX_DONE: u32 = 0x0000_0080;
const PACKET_LOST: u32 = 0x0000_0020;

#[test]
fn frames_are_received_in_the_order_of_the_pairs() {
    let mut trial = chain(4);
    let (first, second) = (frame(OWN, 64), frame(OWN, 70));
    let store = [&second[..], &first[..]].concat();
    let mut expected = trial.memory.clone();
    expected[0x1000..0x1040].copy_from_slice(&first);
    expected[12..16].copy_from_slice(&[64, 0, 0, 0]);
    expected[0x1050..0x1096].copy_from_slice(&second);
    expected[28..32].copy_from_slice(&[70, 0, 0, 0]);
    assert_eq!(trial.burst(&store, &[pair(70, 64), pair(0, 70)]), [0, 0]);
    assert_eq!(trial.memory, expected);
    assert_eq!(trial.bench.receiver.place, 32);
    assert_eq!(trial.status(), RESET_STATUS | RX_CURR_DONE);
}

#[test]
fn each_frame_has_its_own_answer() {
    let mut trial = chain(4);
    let good = frame(OWN, 64);
    let mut wrong = good.clone();
    wrong[30] ^= 4;
    let store = [good, wrong, frame([4; 6], 64)].concat();
    let pairs = [
        pair(0, 63),
        pair(64, 64),
        pair(128, 64),
        pair(0, 64),
        pair(0, 192),
    ];
    assert_eq!(trial.burst(&store, &pairs), [4, 5, 6, 0, 5]);
    assert_eq!(trial.bench.receiver.place, 16);
}

#[test]
fn a_burst_equals_single_receives() {
    let frames = [frame(OWN, 64), frame([4; 6], 64), frame(OWN, 80)];
    let mut singly = chain(2);
    let wanted: Vec<u32> = frames.iter().map(|frame| singly.receive(frame)).collect();
    let mut at_once = chain(2);
    let pairs = [pair(0, 64), pair(64, 64), pair(128, 80)];
    assert_eq!(at_once.burst(&frames.concat(), &pairs), wanted);
    assert_eq!(wanted, [0, 6, 0]);
    at_once.is(&singly);
}

#[test]
fn later_frames_see_what_earlier_ones_left() {
    let mut trial = chain(4);
    // The third descriptor is not granted: the burst stands there, each frame is lost by itself.
    trial.put(32 + 12, 0);
    let store = frame(OWN, 64);
    let pairs = [pair(0, 64); 5];
    assert_eq!(trial.burst(&store, &pairs), [0, 0, 8, 8, 8]);
    assert_eq!(trial.bench.receiver.place, 32);
    assert!(trial.bench.receiver.running);
    assert_eq!(trial.status(), RESET_STATUS | RX_CURR_DONE | PACKET_LOST);
}

#[test]
fn a_frame_over_the_next_descriptor_is_seen_within_the_burst() {
    let mut trial = chain(2);
    // The first buffer begins with the second descriptor's control word, and takes VALID away.
    trial.put(4, 16);
    assert_eq!(trial.burst(&frame(OWN, 64), &[pair(0, 64); 2]), [0, 8]);
}

#[test]
fn the_end_of_a_chain_is_not_running_for_the_rest() {
    let mut trial = chain(2);
    let store = frame(OWN, 64);
    // Not running comes before the length: an empty frame is answered 3 too.
    let pairs = [
        pair(0, 64),
        pair(0, 64),
        pair(0, 64),
        pair(0, 0),
        pair(0, 64),
    ];
    assert_eq!(trial.burst(&store, &pairs), [0, 0, 3, 3, 3]);
    assert!(!trial.bench.receiver.running);
    assert_eq!(trial.bench.receiver.place, 16);
    assert_eq!(trial.status(), RESET_STATUS | RX_CURR_DONE | RX_DONE);
}

#[test]
fn a_chain_fault_in_the_middle_stops_the_rest() {
    let mut trial = chain(3);
    trial.put(16 + 4, 0x1051);
    let store = frame(OWN, 64);
    let pairs = [pair(0, 64), pair(1, 62), pair(0, 64), pair(0, 64)];
    assert_eq!(trial.burst(&store, &pairs), [0, 4, 7, 3]);
    assert_eq!(trial.status(), RESET_STATUS | RX_CURR_DONE);
}
