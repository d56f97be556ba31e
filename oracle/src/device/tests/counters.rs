//! "Frames delivered, lost and sent, each stopping at 4,294,967,295."

use super::{frame, Trial, GRANTED, NEXT_ENABLE, OWN, POLLING, RX_START, TX_START};
use crate::device::{Bench, Counters, Pair};

/// The stop.
const STOP: u32 = 4_294_967_295;

fn counters(delivered: u32, lost: u32, sent: u32) -> Counters {
    Counters {
        delivered,
        lost,
        sent,
    }
}

/// Receiving and sending each on rings of two with room for 100 bytes: both descriptors at 0 and 10
/// receive, those at 20 and 30 send, and all are granted.
fn both() -> Trial {
    let mut trial = Trial::new(0x400);
    for (first, count) in [(0, 100), (0x20, 60)] {
        for place in 0..2 {
            let at = first + 16 * place;
            let next = first + 16 * (1 - place) | POLLING;
            let buffer = 0x100 + 0x80 * (at / 16);
            trial.descriptor(at as usize, count | NEXT_ENABLE, buffer, next, GRANTED);
        }
    }
    trial.start_receiving(POLLING);
    trial.start_sending(0x20 | POLLING);
    trial
}

#[test]
fn all_four_are_0_at_reset() {
    for (base, length) in [(0, 64), (4, 65_536), (1, 64), (0, 0)] {
        let (bench, _) = Bench::new(base, length);
        assert_eq!((bench.counters, bench.ticks), (counters(0, 0, 0), 0));
    }
}

#[test]
fn a_receive_counts_by_0_and_by_8() {
    let mut trial = both();
    let frame = frame(OWN, 64);
    for (answer, delivered, lost) in [(0, 1, 0), (0, 2, 0), (8, 2, 1), (8, 2, 2)] {
        assert_eq!(trial.receive(&frame), answer);
        assert_eq!(trial.bench.counters, counters(delivered, lost, 0));
    }
}

#[test]
fn an_8_without_polling_counts_too() {
    let mut trial = both();
    trial.bench.write(RX_START, 0);
    trial.put(12, 0);
    trial.start_receiving(0);
    let frame = frame(OWN, 64);
    assert_eq!(trial.receive(&frame), 8);
    assert_eq!(trial.receive(&frame), 3);
    assert_eq!(trial.bench.counters, counters(0, 1, 0));
}

#[test]
fn other_answers_of_a_receive_count_nothing() {
    let right = frame(OWN, 64);
    let mut wrong = right.clone();
    wrong[63] ^= 1;
    let foreign = frame([2, 0, 0, 0, 0, 9], 64);
    let cases: [(u32, &[u8]); 4] = [(4, &right[1..]), (5, &wrong), (6, &foreign), (0, &right)];
    let mut trial = both();
    for (answer, frame) in cases {
        let before = trial.bench.counters;
        assert_eq!(trial.receive(frame), answer);
        assert_eq!(trial.bench.counters == before, answer != 0, "{answer}");
    }
    // The second descriptor's count is too small.
    trial.put(16, 60 | NEXT_ENABLE);
    assert_eq!(trial.receive(&right), 7);
    assert_eq!(trial.receive(&right), 3);
    assert_eq!(trial.bench.receive(&mut [], &right), 11);
    assert_eq!(trial.bench.counters, counters(1, 0, 0));
}

#[test]
fn each_frame_of_a_burst_counts() {
    let mut trial = both();
    let store = frame(OWN, 64);
    let whole = Pair {
        start: 0,
        length: 64,
    };
    let outside = Pair {
        start: 1,
        length: 64,
    };
    let pairs = [whole, outside, whole, whole, whole, whole];
    let mut answers = [99; 6];
    let number = trial
        .bench
        .burst(&mut trial.memory, &store, &pairs, &mut answers);
    assert_eq!((number, answers), (0, [0, 16, 0, 8, 8, 8]));
    assert_eq!(trial.bench.counters, counters(2, 3, 0));
    let number = trial
        .bench
        .burst(&mut trial.memory, &store, &pairs, &mut answers[1..]);
    assert_eq!(number, 16);
    assert_eq!(trial.bench.counters, counters(2, 3, 0));
}

#[test]
fn a_send_counts_by_0_alone() {
    let mut trial = both();
    for (answer, sent) in [(0, 1), (0, 2), (8, 2), (8, 2)] {
        assert_eq!(trial.send().0, answer);
        assert_eq!(trial.bench.counters, counters(0, 0, sent));
    }
    let mut memory = trial.memory.clone();
    assert_eq!(trial.bench.send(&mut memory, &mut [0; 1_517]).0, 9);
    assert_eq!(trial.bench.send(&mut [], &mut [0; 1_518]).0, 11);
    trial.put(0x2C, GRANTED);
    trial.put(0x20, 13);
    assert_eq!(trial.send().0, 12);
    assert_eq!(trial.send().0, 3);
    trial.put(0x24, 1);
    trial.bench.write(TX_START, 5);
    assert_eq!(trial.send().0, 7);
    assert_eq!(trial.bench.counters, counters(0, 0, 2));
}

#[test]
fn each_frame_of_a_step_run_counts() {
    let mut trial = both();
    let run = trial.bench.run(&mut trial.memory, &mut [0; 9_000], 5);
    assert_eq!((run.answer, run.steps), (8, 3));
    assert_eq!(trial.bench.counters, counters(0, 0, 2));
    let run = trial.bench.run(&mut trial.memory, &mut [0; 9_000], 4_097);
    assert_eq!(run.answer, 10);
    assert_eq!(trial.bench.counters, counters(0, 0, 2));
}

#[test]
fn each_stops_at_the_stop() {
    for below in 0..3 {
        let near = STOP - below;
        let mut trial = both();
        trial.bench.counters = counters(near, near, near);
        let frame = frame(OWN, 64);
        for step in 1..=2 {
            let now = near.saturating_add(step);
            assert_eq!(trial.receive(&frame), 0);
            assert_eq!(trial.send().0, 0);
            assert_eq!(trial.bench.counters, counters(now, near, now));
        }
        for step in 1..=3 {
            assert_eq!(trial.receive(&frame), 8);
            assert_eq!(trial.bench.counters.lost, near.saturating_add(step));
        }
        assert_eq!(trial.bench.counters.lost, STOP);
    }
}

#[test]
fn at_the_stop_bursts_and_step_runs_stay_there() {
    let mut trial = both();
    trial.bench.counters = counters(STOP - 1, STOP - 1, STOP - 1);
    let store = frame(OWN, 64);
    let pairs = [Pair {
        start: 0,
        length: 64,
    }; 5];
    let mut answers = [99; 5];
    trial
        .bench
        .burst(&mut trial.memory, &store, &pairs, &mut answers);
    assert_eq!(answers, [0, 0, 8, 8, 8]);
    trial.bench.run(&mut trial.memory, &mut [0; 9_000], 2);
    assert_eq!(trial.bench.counters, counters(STOP, STOP, STOP));
}

#[test]
fn they_are_no_registers() {
    let mut trial = both();
    assert_eq!(trial.receive(&frame(OWN, 64)), 0);
    let before = trial.bench.counters;
    for offset in (0..0x500).step_by(4) {
        trial.bench.write(offset, 0);
        trial.bench.write(offset, u32::MAX);
    }
    assert_eq!(trial.bench.counters, before);
}
