//! What clears the count of ticks, and what leaves it.

use super::{waiting, Trial, GRANTED, POLLING, RESET_STATUS};
use crate::device::tests::{frame, OWN, RX_START, TX_NEXT, TX_START};

/// Two ticks counted, of five.
fn counted() -> Trial {
    let mut trial = waiting(5);
    assert_eq!(trial.ticks(2), [1, 2]);
    trial
}

/// Another place of sending: stopped, and started there.
fn go_to(trial: &mut Trial, place: u32) {
    trial.bench.write(TX_START, 0);
    trial.bench.write(TX_NEXT, place | POLLING);
    trial.bench.write(TX_START, 5);
    assert_eq!(trial.bench.sender.place, place);
}

#[test]
fn refused_by_11_alone_and_nothing_is_changed() {
    let mut trial = counted();
    let before = trial.bench.clone();
    for length in [0, 0x3FF, 0x3FC, 0x401, 0x404] {
        assert_eq!(trial.bench.tick(&vec![0; length]), 11);
        assert_eq!(trial.bench, before);
    }
    trial.bench.write(TX_START, 0);
    assert_eq!(trial.bench.tick(&[]), 11);
    assert_eq!(trial.bench.ticks, 2);
}

#[test]
fn a_tick_clears_it_where_sending_is_stopped() {
    let mut trial = counted();
    trial.bench.write(TX_START, 0);
    assert_eq!(trial.bench.ticks, 2);
    assert_eq!(trial.tick(), 0);
    assert_eq!(trial.status(), RESET_STATUS);
}

#[test]
fn a_tick_clears_it_where_the_descriptor_is_returned() {
    let mut trial = counted();
    trial.put(0x8C, !GRANTED);
    assert_eq!(trial.tick(), 0);
    assert!(trial.bench.sender.running);
    trial.put(0x8C, GRANTED);
    assert_eq!(trial.tick(), 1);
}

#[test]
fn a_tick_clears_it_where_the_descriptor_is_outside() {
    for place in [0x3F4, 0x3FC, 0x400, 0x8000, 0xFFFF_FFF4] {
        let mut trial = counted();
        go_to(&mut trial, place);
        assert_eq!(trial.bench.ticks, 2);
        assert_eq!(trial.tick(), 0);
        assert!(trial.bench.sender.running);
    }
    let mut trial = counted();
    trial.put(0x3FC, GRANTED);
    go_to(&mut trial, 0x3F0);
    assert_eq!(trial.tick(), 3);
}

#[test]
fn a_stop_and_a_start_between_two_ticks_leave_it() {
    let mut trial = counted();
    go_to(&mut trial, 0x80);
    assert_eq!(trial.tick(), 3);
}

#[test]
fn the_receive_engine_has_no_part_in_it() {
    let mut trial = counted();
    trial.start_receiving(0x80);
    assert_eq!(trial.tick(), 3);
    trial.bench.write(TX_START, 0);
    assert_eq!(trial.tick(), 0);
    trial.bench.write(TX_START, 5);
    trial.bench.write(RX_START, 0);
    assert_eq!(trial.tick(), 1);
    // A frame comes in at another descriptor.
    trial.descriptor(0, 100, 0x200, 0, GRANTED);
    trial.start_receiving(0);
    assert_eq!(trial.receive(&frame(OWN, 64)), 0);
    assert_eq!(trial.tick(), 2);
}

#[test]
fn a_send_that_answers_0_clears_it() {
    let mut trial = counted();
    assert_eq!(trial.send().0, 0);
    assert_eq!(trial.bench.ticks, 0);
    assert_eq!(trial.tick(), 0);
    trial.put(0x8C, GRANTED);
    assert_eq!(trial.ticks(2), [1, 2]);
    let run = trial.bench.run(&mut trial.memory, &mut [0; 4_000], 3);
    assert_eq!((run.answer, run.steps), (8, 2));
    assert_eq!(trial.bench.ticks, 0);
}

#[test]
fn a_refused_send_leaves_it() {
    let mut trial = counted();
    let mut memory = trial.memory.clone();
    assert_eq!(trial.bench.send(&mut [], &mut [0; 1_518]).0, 11);
    assert_eq!(trial.bench.send(&mut memory, &mut [0; 1_517]).0, 9);
    assert_eq!(trial.bench.ticks, 2);
    let run = trial.bench.run(&mut memory, &mut [0; 1_518], 4_097);
    assert_eq!((run.answer, trial.bench.ticks), (10, 2));
    let run = trial.bench.run(&mut memory, &mut [0; 1_518], 0);
    assert_eq!((run.answer, trial.bench.ticks), (0, 2));
    // Not granted, with polling and without.
    for word in [0x80 | POLLING, 0x80] {
        let mut trial = counted();
        trial.bench.write(TX_START, 0);
        trial.start_sending(word);
        trial.put(0x8C, 0);
        assert_eq!(trial.send().0, 8);
        assert_eq!(trial.bench.ticks, 2);
    }
    let mut trial = counted();
    trial.put(0x84, 0x101);
    assert_eq!(trial.send().0, 7);
    assert_eq!(trial.send().0, 3);
    assert_eq!(trial.bench.ticks, 2);
    let mut trial = counted();
    go_to(&mut trial, 0x3F4);
    assert_eq!(trial.send().0, 7);
    assert_eq!(trial.bench.ticks, 2);
    let mut trial = counted();
    trial.put(0x80, 13);
    assert_eq!(trial.send().0, 12);
    assert_eq!(trial.bench.ticks, 2);
}
