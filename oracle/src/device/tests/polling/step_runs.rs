//! Step runs that come to a descriptor that is not granted.

use super::{engine, polls, two, Side, GRANTED, LOW_BITS};
use crate::device::StepRun;

/// The answer and the steps of a run with room for all, each frame of which has 68 bytes.
fn run(trial: &mut super::Trial, allowance: u64) -> (u32, u64) {
    let memory = &mut trial.memory;
    let StepRun {
        answer,
        steps,
        bytes,
    } = trial.bench.run(memory, &mut vec![0; 9_000], allowance);
    let sent = if answer == 0 { steps } else { steps - 1 };
    assert_eq!(bytes as u64, 68 * sent);
    (answer, steps)
}

#[test]
fn the_refused_step_is_counted_and_has_stopped_sending() {
    for bits in LOW_BITS {
        let mut trial = two(bits, 0, [GRANTED, 0]);
        trial.start_by(Side::Sending, !bits & 3);
        assert_eq!(run(&mut trial, 9), (8, 2));
        let left = engine(polls(bits), 16, polls(bits));
        assert_eq!(trial.bench.sender, left);
        // Then it is not running, or looks again.
        let again = if polls(bits) { 8 } else { 3 };
        assert_eq!(run(&mut trial, 9), (again, 1));
    }
}

#[test]
fn the_allowance_may_end_before_it() {
    let mut trial = two(0, 0, [GRANTED, 0]);
    trial.start_by(Side::Sending, 0);
    assert_eq!(run(&mut trial, 1), (0, 1));
    assert_eq!(trial.bench.sender, engine(true, 16, false));
    assert_eq!(run(&mut trial, 1), (8, 1));
    assert_eq!(trial.bench.sender, engine(false, 16, false));
}

#[test]
fn a_run_equals_that_many_single_sends() {
    for bits in LOW_BITS {
        for status in [[0, 0], [GRANTED, 0], [GRANTED, GRANTED]] {
            let mut at_once = two(bits, !bits & 3, status);
            at_once.start_by(Side::Sending, bits);
            let mut singly = at_once.clone();
            let (answer, steps) = run(&mut at_once, 4);
            let answers: Vec<u32> = (0..steps).map(|_| singly.send().0).collect();
            assert_eq!(answers.last(), Some(&answer));
            assert_eq!(at_once.bench, singly.bench);
            assert_eq!(at_once.memory, singly.memory);
        }
    }
}
