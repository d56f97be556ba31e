//! Pairs at the store's end and outside, and calls that are refused.

use super::super::{frame, OWN, RX_START};
use super::{chain, pair, BEFORE};

#[test]
fn a_pair_outside_changes_nothing_else() {
    let store = [frame(OWN, 64), frame(OWN, 70)].concat();
    let mut with = chain(4);
    let pairs = [pair(0, 64), pair(64, 71), pair(64, 70)];
    assert_eq!(with.burst(&store, &pairs), [0, 16, 0]);
    let mut without = chain(4);
    assert_eq!(without.burst(&store, &[pairs[0], pairs[2]]), [0, 0]);
    with.is(&without);
}

#[test]
fn up_to_the_end_is_inside() {
    let store = frame(OWN, 64);
    let mut trial = chain(9);
    let pairs = [
        pair(0, 64),
        pair(0, 65),
        pair(1, 64),
        pair(64, 0),
        pair(65, 0),
        pair(64, 1),
        pair(63, 1),
    ];
    assert_eq!(trial.burst(&store, &pairs), [0, 16, 16, 4, 16, 16, 4]);
}

#[test]
fn a_length_of_zero_is_an_empty_frame() {
    let mut trial = chain(1);
    assert_eq!(trial.burst(&[0; 8], &[pair(0, 0), pair(8, 0)]), [4, 4]);
    assert_eq!(trial.burst(&[], &[pair(0, 0), pair(1, 0)]), [4, 16]);
    trial.bench.write(RX_START, 0);
    assert_eq!(trial.burst(&[], &[pair(0, 0), pair(1, 0)]), [3, 16]);
}

#[test]
fn start_and_length_do_not_wrap() {
    let store = frame(OWN, 64);
    let mut trial = chain(1);
    let before = trial.clone();
    let pairs = [
        pair(u64::MAX, 1),
        pair(1, u64::MAX),
        pair(u64::MAX, u64::MAX),
        pair(u64::MAX - 63, 64),
        pair(1 << 32, 64),
        pair(0, (1 << 32) + 64),
        pair(0xFFFF_FFFF, 65),
    ];
    assert_eq!(trial.burst(&store, &pairs), [16; 7]);
    trial.is(&before);
}

#[test]
fn outside_comes_before_every_other_number_of_the_pair() {
    let mut trial = chain(1);
    let store = frame(OWN, 64);
    let pairs = [pair(0, 64), pair(0, 65)];
    trial.bench.write(RX_START, 0);
    assert_eq!(trial.burst(&store, &pairs), [3, 16]);
    let before = trial.bench.clone();
    let mut answers = [BEFORE; 2];
    let mut short = vec![0xA5; 0x3FFC];
    let number = trial.bench.burst(&mut short, &store, &pairs, &mut answers);
    assert_eq!((number, answers), (0, [11, 16]));
    assert_eq!(trial.bench, before);
    assert!(short.iter().all(|byte| *byte == 0xA5));
}

#[test]
fn sixty_four_pairs_at_most() {
    let store = frame(OWN, 64);
    let mut trial = chain(64);
    trial.refuses(65, &store, &[pair(0, 64); 65]);
    trial.refuses(66, &store, &[pair(0, 64); 66]);
    trial.refuses(64, &store, &[pair(0, 64); 65]);
    assert_eq!(trial.burst(&store, &[pair(0, 64); 64]), [0; 64]);
    assert!(!trial.bench.receiver.running);
}

#[test]
fn another_answer_list_is_refused_and_left_as_it_was() {
    let store = frame(OWN, 64);
    let mut trial = chain(4);
    trial.refuses(1, &store, &[pair(0, 64); 2]);
    trial.refuses(3, &store, &[pair(0, 64); 2]);
    trial.refuses(0, &store, &[pair(0, 64)]);
    trial.refuses(1, &store, &[]);
    // Also where every pair is outside, or the memory of another length.
    trial.refuses(3, &store, &[pair(65, 0); 2]);
    let mut answers = [BEFORE; 2];
    let pairs = [pair(0, 64)];
    let bench = &mut trial.bench;
    assert_eq!(bench.burst(&mut [], &store, &pairs, &mut answers), 16);
    assert_eq!(answers, [BEFORE; 2]);
}

#[test]
fn no_pairs_and_no_answers_are_done() {
    let mut trial = chain(1);
    let before = trial.clone();
    assert!(trial.burst(&frame(OWN, 64), &[]).is_empty());
    assert!(trial.burst(&[], &[]).is_empty());
    trial.is(&before);
    assert_eq!(trial.bench.burst(&mut [], &[], &[], &mut []), 0);
    assert_eq!(trial.bench, before.bench);
}
