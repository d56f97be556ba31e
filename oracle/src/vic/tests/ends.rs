//! Writes of VIC0_VAR and VIC1_VAR.

use super::*;

#[test]
fn a_write_ends_the_last_taken_and_keeps_no_data() {
    let mut trial = Trial::new();
    trial.slot(0, 2, 2);
    trial.levels = [0x8000, 0];
    trial.take();
    trial.levels = [0x8004, 0];
    trial.take();
    assert_eq!(trial.ranks(), [31, 2]);
    trial.write(0, VAR, 0xFFFF_FFFF);
    assert_eq!(trial.ranks(), [31]);
    trial.write(0, VAR, 0x1234_5678);
    assert_eq!(trial.ranks(), []);
    trial.levels = [0; 2];
    assert_eq!(trial.take(), DEFAULTS[0]);
    assert_eq!(trial.read(1, VAR), 0);
}

#[test]
fn with_none_in_service_nothing_changes() {
    let mut trial = Trial::new();
    trial.levels = [0xFFFF; 2];
    let before = trial.clone();
    trial.write(0, VAR, 5);
    trial.write(1, VAR, 5);
    assert_eq!(trial, before);
}

#[test]
fn only_the_controller_that_it_came_from_ends_it() {
    let mut trial = Trial::new();
    trial.levels = [0, 0x0001];
    trial.take();
    trial.write(0, VAR, 0);
    assert_eq!(trial.ranks(), [48]);
    trial.levels = [0x0001, 0];
    trial.take();
    // Not the one of VIC1 below it either.
    trial.write(1, VAR, 0);
    assert_eq!(trial.ranks(), [48, 16]);
    trial.write(0, VAR, 0);
    assert_eq!(trial.ranks(), [48]);
    trial.write(1, VAR, 0);
    assert_eq!(trial.ranks(), []);
}

#[test]
fn a_routine_for_vic1_can_write_one_or_both_in_either_order() {
    // 4.3 has "and", 4.10.10 has "or". One of VIC1 is in service below.
    for writes in [&[1][..], &[0, 1], &[1, 0]] {
        let mut trial = Trial::new();
        trial.slot(1, 3, 3);
        trial.levels = [0, 0x0100];
        trial.take();
        trial.levels = [0, 0x0108];
        assert_eq!(trial.take(), vector(1, 3));
        assert_eq!(trial.read(1, VAR), vector(1, 3));
        for controller in writes {
            trial.write(*controller, VAR, 0);
        }
        assert_eq!(trial.ranks(), [56]);
    }
}

#[test]
fn a_routine_for_vic0_over_one_of_vic0_can_write_both() {
    let mut trial = Trial::new();
    trial.levels = [0x0100, 0];
    trial.take();
    trial.levels = [0x0110, 0];
    trial.take();
    trial.write(0, VAR, 0);
    trial.write(1, VAR, 0);
    assert_eq!(trial.ranks(), [24]);
}

#[test]
fn the_case_that_no_reading_saves() {
    // Over a request of VIC1 a routine of VIC0 that writes both ends that too.
    let mut trial = Trial::new();
    trial.levels = [0, 0x0100];
    trial.take();
    trial.levels = [0x0010, 0x0100];
    trial.take();
    trial.write(0, VAR, 0);
    trial.write(1, VAR, 0);
    assert_eq!(trial.ranks(), []);
}
