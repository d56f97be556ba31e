//! Reads of VIC0_VAR and VIC1_VAR.

use super::*;

#[test]
fn the_answer_is_taken_at_its_rank() {
    let mut trial = Trial::new();
    trial.slot(0, 6, 10);
    trial.slot(1, 9, 10);
    for (levels, vector, rank) in [
        ([0x0400, 0], vector(0, 6), 6),
        ([0x0020, 0], DEFAULTS[0], 16 + 5),
        ([0, 0x0400], vector(1, 9), 32 + 9),
        ([0, 0x8000], DEFAULTS[1], 32 + 16 + 15),
    ] {
        let mut trial = trial.clone();
        trial.levels = levels;
        assert_eq!(trial.take(), vector);
        assert_eq!(trial.ranks(), [rank]);
    }
}

#[test]
fn with_no_answer_the_default_of_vic0_and_nothing_changes() {
    let mut trial = Trial::new();
    assert_eq!(trial.take(), DEFAULTS[0]);
    assert_eq!(trial.ranks(), []);
    // Also while one of VIC1 is in service and asks again.
    trial.slot(1, 2, 2);
    trial.levels = [0, 0x0004];
    assert_eq!(trial.take(), vector(1, 2));
    let before = trial.clone();
    assert_eq!(trial.take(), DEFAULTS[0]);
    assert_eq!(trial, before);
}

#[test]
fn the_second_read_for_a_request_of_vic1() {
    // 4.3: "the interrupt subroutine has to read the VIC1_VAR register as well".
    let mut trial = Trial::new();
    trial.slot(1, 5, 12);
    trial.levels = [0, 0x1001];
    assert_eq!(trial.take(), vector(1, 5));
    let before = trial.clone();
    assert_eq!(trial.read(1, VAR), vector(1, 5));
    assert_eq!(trial, before);
    // One without a slot.
    trial.write(1, VAR, 0);
    trial.levels = [0, 0x0001];
    assert_eq!(trial.take(), DEFAULTS[1]);
    assert_eq!(trial.read(1, VAR), DEFAULTS[1]);
}

#[test]
fn vic1_var_is_0_if_the_last_taken_is_not_of_vic1() {
    let mut trial = Trial::new();
    trial.levels = [0, 0x0001];
    // Raised, but not taken.
    assert_eq!(trial.read(1, VAR), 0);
    assert_eq!(trial.take(), DEFAULTS[1]);
    trial.levels = [0x0001, 0x0001];
    assert_eq!(trial.take(), DEFAULTS[0]);
    assert_eq!(trial.read(1, VAR), 0);
    trial.write(0, VAR, 0);
    assert_eq!(trial.read(1, VAR), DEFAULTS[1]);
    trial.write(1, VAR, 0);
    assert_eq!(trial.read(1, VAR), 0);
}

#[test]
fn vic1_var_gives_what_stands_there_now() {
    let mut trial = Trial::new();
    trial.slot(1, 5, 12);
    trial.levels = [0, 0x1000];
    trial.take();
    trial.write(1, VA0R + 4 * 5, 0x1234_5678);
    assert_eq!(trial.read(1, VAR), 0x1234_5678);
    // The slot names another input now, or none; it is the rank that counts.
    trial.slot(1, 5, 1);
    trial.slot(1, 7, 12);
    assert_eq!(trial.read(1, VAR), 0x1234_5678);
    trial.write(1, VC0R + 4 * 5, 0);
    assert_eq!(trial.read(1, VAR), 0x1234_5678);
    // Nor does it matter whether the request is raised.
    trial.levels = [0; 2];
    assert_eq!(trial.read(1, VAR), 0x1234_5678);
}

#[test]
fn no_other_read_takes() {
    let mut trial = Trial::new();
    trial.levels = [0xFFFF; 2];
    let before = trial.clone();
    for offset in (0..0x400).filter(|offset| *offset != VAR) {
        trial.pair.read(0, offset, trial.levels);
        trial.pair.read(1, offset, trial.levels);
    }
    trial.read(1, VAR);
    assert_eq!(trial, before);
}
