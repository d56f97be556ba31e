use super::{Trial, GRANTED, NEXT_ENABLE};
use crate::device::StepRun;

/// Four granted descriptors of 14 bytes each, then an end.
fn chain() -> Trial {
    let mut trial = Trial::new(0x400);
    for place in 0..4 {
        let next_enable = if place < 3 { NEXT_ENABLE } else { 0 };
        let address = 16 * place as usize;
        trial.descriptor(
            address,
            14 | next_enable,
            0x100 + 16 * place,
            16 * (place + 1),
            GRANTED,
        );
    }
    trial.start_sending(0);
    trial
}

fn run(trial: &mut Trial, room: usize, allowance: u64) -> StepRun {
    trial
        .bench
        .run(&mut trial.memory, &mut vec![0; room], allowance)
}

fn result(answer: u32, steps: u64, bytes: usize) -> StepRun {
    StepRun {
        answer,
        steps,
        bytes,
    }
}

#[test]
fn the_last_unsuccessful_step_is_counted() {
    assert_eq!(run(&mut chain(), 4_000, 4_096), result(3, 5, 256));
    assert_eq!(run(&mut chain(), 4_000, 4), result(0, 4, 256));
    assert_eq!(run(&mut chain(), 4_000, 2), result(0, 2, 128));
}

#[test]
fn each_step_sees_the_output_that_is_left() {
    assert_eq!(run(&mut chain(), 1_517, 9), result(9, 1, 0));
    assert_eq!(run(&mut chain(), 1_518, 9), result(9, 2, 64));
    assert_eq!(run(&mut chain(), 1_518 + 63, 9), result(9, 2, 64));
    assert_eq!(run(&mut chain(), 1_518 + 64, 9), result(9, 3, 128));
}

#[test]
fn the_allowance_comes_before_the_memory() {
    let mut trial = chain();
    let before = trial.bench.clone();
    let mut other = vec![0; 4];
    let mut output = vec![0; 4_000];
    let bench = &mut trial.bench;
    assert_eq!(bench.run(&mut other, &mut output, 4_097), result(10, 0, 0));
    assert_eq!(bench.run(&mut other, &mut output, 0), result(0, 0, 0));
    assert_eq!(bench.run(&mut other, &mut output, 1), result(11, 1, 0));
    assert_eq!(*bench, before);
}

#[test]
fn a_run_equals_that_many_single_sends() {
    let mut singly = chain();
    let mut wanted = Vec::new();
    for _ in 0..3 {
        let (number, output) = singly.send();
        assert_eq!(number, 0);
        wanted.extend(output);
    }
    let mut at_once = chain();
    let mut output = vec![0; 4_000];
    at_once.bench.run(&mut at_once.memory, &mut output, 3);
    assert_eq!(output[..wanted.len()], wanted);
    assert_eq!(at_once.bench, singly.bench);
    assert_eq!(at_once.memory, singly.memory);
}
