//! What a tick adds, and when it fires.

use super::{waiting, GRANTED, RESET_STATUS, TIME_OUT, TX_TO};
use crate::device::Bench;

#[test]
fn a_value_fires_at_the_tick_behind_as_many() {
    for value in 1..6 {
        let mut trial = waiting(value);
        let counts: Vec<u32> = (1..=value).collect();
        assert_eq!(trial.ticks(value as usize), counts);
        assert!(!trial.timed_out());
        assert_eq!(trial.tick(), 0);
        assert_eq!(trial.status(), RESET_STATUS | TX_TO);
    }
}

#[test]
fn it_starts_again_at_0_and_fires_again() {
    let mut trial = waiting(2);
    assert_eq!(trial.ticks(7), [1, 2, 0, 1, 2, 0, 1]);
    trial.bench.write(0x08, TX_TO);
    assert_eq!(trial.tick(), 2);
    assert!(!trial.timed_out());
    assert_eq!(trial.tick(), 0);
    assert!(trial.timed_out());
}

#[test]
fn the_greatest_value() {
    let mut trial = waiting(0xFFFF);
    trial.bench.ticks = 0xFFFE;
    assert_eq!(trial.tick(), 0xFFFF);
    assert!(!trial.timed_out());
    assert_eq!(trial.tick(), 0);
    assert!(trial.timed_out());
}

#[test]
fn value_0_keeps_it_at_0() {
    let mut trial = waiting(0);
    assert_eq!(trial.ticks(5), [0; 5]);
    assert!(!trial.timed_out());
    // The reset value is 0 too.
    let (mut bench, _) = Bench::new(0, 0x400);
    let memory = trial.memory.clone();
    bench.write(0x3C, 0x80);
    bench.write(0x30, 5);
    assert_eq!(bench.tick(&memory), 0);
    assert_eq!((bench.ticks, bench.read(0x08).1), (0, RESET_STATUS));
}

#[test]
fn a_count_above_the_value_fires_at_the_next_tick() {
    for count in [4, 100, u32::MAX - 1, u32::MAX] {
        let mut trial = waiting(3);
        trial.bench.ticks = count;
        assert_eq!(trial.tick(), 0);
        assert!(trial.timed_out());
    }
}

#[test]
fn the_value_alone_counts_not_what_is_above_it() {
    let mut trial = waiting(0xFFFF_0001);
    assert_eq!(trial.bench.read(TIME_OUT), (0, 1));
    assert_eq!(trial.ticks(2), [1, 0]);
    assert!(trial.timed_out());
}

#[test]
fn it_raises_the_line_if_enabled() {
    let mut trial = waiting(1);
    trial.bench.write(0x04, TX_TO);
    trial.tick();
    assert!(!trial.bench.line());
    trial.tick();
    assert!(trial.bench.line());
}

#[test]
fn a_tick_looks_at_no_buffer_and_stops_nothing() {
    for (count, start) in [(13, 0x100), (1_515, 0x100), (60, 0x101), (60, 0x400)] {
        let mut trial = waiting(2);
        trial.descriptor(0x80, count, start, 0, GRANTED);
        let (memory, sender) = (trial.memory.clone(), trial.bench.sender);
        assert_eq!(trial.ticks(3), [1, 2, 0]);
        assert!(trial.timed_out());
        assert_eq!((trial.memory, trial.bench.sender), (memory, sender));
    }
}

#[test]
fn a_tick_changes_no_counter() {
    let mut trial = waiting(1);
    let counters = trial.bench.counters;
    trial.ticks(9);
    assert_eq!(trial.bench.counters, counters);
}
