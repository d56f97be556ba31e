use super::{frame, Trial, GRANTED, NEXT_ENABLE, OWN, POLLING, RESET_STATUS, RX_START};
use crate::check;

const RX_CURR_DONE: u32 = 0x0000_8000;
const RX_DONE: u32 = 0x0000_0080;
const PACKET_LOST: u32 = 0x0000_0020;

/// Two granted descriptors at 0 and 16, buffers at 0x100 and 0x200, in a ring with polling.
fn ring_of_two() -> Trial {
    let mut trial = Trial::new(0x400);
    trial.descriptor(0, 0x100 | NEXT_ENABLE, 0x100, 16 | POLLING, GRANTED);
    trial.descriptor(16, 0x100 | NEXT_ENABLE, 0x200, POLLING, GRANTED);
    trial.start_receiving(POLLING);
    trial
}

#[test]
fn a_delivery_writes_the_frame_and_the_status_word_alone() {
    let mut trial = ring_of_two();
    let mut expected = trial.memory.clone();
    let sent = frame(OWN, 70);
    expected[0x100..0x146].copy_from_slice(&sent);
    expected[12..16].copy_from_slice(&[70, 0, 0, 0]);
    assert_eq!(trial.receive(&sent), 0);
    assert_eq!(trial.memory, expected);
    assert_eq!(trial.status(), RESET_STATUS | RX_CURR_DONE);
    assert_eq!(trial.bench.receiver.place, 16);
}

#[test]
fn the_end_of_a_chain_stops_in_place() {
    let mut trial = Trial::new(0x400);
    trial.descriptor(0, 0x100, 0x100, 16, GRANTED);
    trial.start_receiving(0);
    assert_eq!(trial.receive(&frame(OWN, 64)), 0);
    assert_eq!(trial.status(), RESET_STATUS | RX_CURR_DONE | RX_DONE);
    assert!(!trial.bench.receiver.running);
    assert_eq!(trial.bench.receiver.place, 0);
    assert_eq!(trial.bench.read(RX_START), (0, 5));
    assert_eq!(trial.receive(&frame(OWN, 64)), 3);
}

#[test]
fn a_loss_keeps_the_place_and_the_next_frame_looks_again() {
    let mut trial = ring_of_two();
    trial.put(12, 0);
    let before = trial.memory.clone();
    assert_eq!(trial.receive(&frame(OWN, 64)), 8);
    assert_eq!(trial.memory, before);
    assert_eq!(trial.status(), RESET_STATUS | PACKET_LOST);
    assert_eq!(trial.bench.receiver.place, 0);
    assert!(trial.bench.receiver.running);
    trial.put(12, GRANTED);
    assert_eq!(trial.receive(&frame(OWN, 64)), 0);
    assert_eq!(trial.bench.receiver.place, 16);
}

#[test]
fn a_frame_turned_away_is_not_lost() {
    let mut trial = ring_of_two();
    trial.put(12, 0);
    let mut wrong = frame(OWN, 64);
    wrong[30] ^= 4;
    let before = trial.clone();
    for (number, bytes) in [(4, frame(OWN, 63)), (5, wrong), (6, frame([4; 6], 64))] {
        assert_eq!(trial.receive(&bytes), number);
        assert_eq!(trial.bench, before.bench);
        assert_eq!(trial.memory, before.memory);
    }
}

#[test]
fn the_order_of_refusals() {
    let mut trial = ring_of_two();
    let mut wrong = frame([4; 6], 63);
    // Lent memory, then the engine, then length, check and address.
    trial.bench.write(RX_START, 0);
    let mut short = vec![0; 0x3FC];
    assert_eq!(trial.bench.receive(&mut short, &wrong), 11);
    assert_eq!(trial.receive(&wrong), 3);
    trial.bench.write(RX_START, 5);
    assert_eq!(trial.receive(&wrong), 4);
    wrong.push(0);
    assert_eq!(trial.receive(&wrong), 5);
    // The address before the chain.
    trial.start_receiving(0);
    trial.bench.write(RX_START, 0);
    trial.start_receiving(0x400);
    assert_eq!(trial.receive(&frame([4; 6], 64)), 6);
    assert!(trial.bench.receiver.running);
    assert_eq!(trial.receive(&frame(OWN, 64)), 7);
    assert!(!trial.bench.receiver.running);
    assert_eq!(trial.bench.receiver.place, 0x400);
    assert_eq!(trial.status(), RESET_STATUS);
}

#[test]
fn a_bad_buffer_counts_only_once_granted() {
    let mut trial = ring_of_two();
    trial.descriptor(0, 63 | NEXT_ENABLE, 0x103, 16, 0);
    assert_eq!(trial.receive(&frame(OWN, 64)), 8);
    trial.put(12, GRANTED);
    let before = trial.memory.clone();
    assert_eq!(trial.receive(&frame(OWN, 64)), 7);
    assert_eq!(trial.memory, before);
    assert_eq!(trial.status(), RESET_STATUS | PACKET_LOST);
}

/// The answer to a frame of 64 with one granted descriptor at 0x80 of a window of 0x100.
fn with_buffer(count: u32, start: u32) -> u32 {
    let mut trial = Trial::new(0x100);
    trial.descriptor(0x80, count | NEXT_ENABLE, start, 0, GRANTED);
    trial.start_receiving(0x80);
    trial.receive(&frame(OWN, 64))
}

#[test]
fn buffers_go_by_the_frames_bytes() {
    assert_eq!(with_buffer(64, 0), 0);
    assert_eq!(with_buffer(63, 0), 7);
    assert_eq!(with_buffer(0, 0), 7);
    assert_eq!(with_buffer(4_095, 0xC0), 0);
    assert_eq!(with_buffer(4_095, 0xC4), 7);
    assert_eq!(with_buffer(64, 1), 7);
    assert_eq!(with_buffer(64, 2), 7);
}

#[test]
fn a_buffer_may_touch_its_own_descriptor_but_not_share_a_byte() {
    assert_eq!(with_buffer(64, 0x40), 0);
    assert_eq!(with_buffer(64, 0x44), 7);
    assert_eq!(with_buffer(64, 0x8C), 7);
    assert_eq!(with_buffer(64, 0x90), 0);
}

#[test]
fn a_buffer_over_a_foreign_descriptor_is_seen_by_the_next_frame() {
    let mut trial = ring_of_two();
    // The first frame's bytes 16 to 31 fall on the second descriptor.
    trial.put(4, 0x20);
    trial.put(8, 0x30);
    trial.descriptor(0x30, 0x100, 0x200, 0, 0);
    let mut message = vec![0; 60];
    message[..6].copy_from_slice(&OWN);
    message[16..20].copy_from_slice(&[100, 0, 0, 0]);
    message[20..24].copy_from_slice(&[0, 3, 0, 0]);
    message[24..28].copy_from_slice(&[0; 4]);
    message[28..32].copy_from_slice(&[0, 0, 1, 0]);
    assert_eq!(trial.receive(&check::closed(&message)), 0);
    let second = frame(OWN, 64);
    assert_eq!(trial.receive(&second), 0);
    assert_eq!(trial.memory[0x300..0x340], second[..]);
    assert_eq!(trial.get(0x3C), 64);
    assert!(!trial.bench.receiver.running);
}

#[test]
fn a_move_does_not_look_where_it_goes() {
    let mut trial = ring_of_two();
    trial.put(8, 0xFFFF_FFFF);
    assert_eq!(trial.receive(&frame(OWN, 64)), 0);
    assert_eq!(trial.bench.receiver.place, 0xFFFF_FFFC);
    assert!(trial.bench.receiver.running);
    assert_eq!(trial.receive(&frame(OWN, 64)), 7);
}

#[test]
fn clearing_dma_enable_raises_nothing() {
    let mut trial = ring_of_two();
    trial.receive(&frame(OWN, 64));
    trial.bench.write(RX_START, 0);
    trial.bench.write(RX_START, 5);
    assert_eq!(trial.status(), RESET_STATUS | RX_CURR_DONE);
    assert_eq!(trial.bench.receiver.place, 0);
}
