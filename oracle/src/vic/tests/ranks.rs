//! Which request is the highest.

use super::*;

#[test]
fn nothing_raised_is_no_answer() {
    let mut trial = Trial::new();
    assert_eq!(trial.irq(), None);
    trial.slot(0, 0, 5);
    assert_eq!(trial.irq(), None);
}

#[test]
fn a_lower_slot_goes_first_whatever_the_inputs() {
    let mut trial = Trial::new();
    trial.slot(0, 4, 15);
    trial.slot(0, 5, 0);
    trial.levels = [0x8001, 0];
    assert_eq!(trial.irq(), Some((0, 15, vector(0, 4))));
    trial.levels = [0x0001, 0];
    assert_eq!(trial.irq(), Some((0, 0, vector(0, 5))));
}

#[test]
fn without_a_slot_lower_inputs_go_first() {
    let mut trial = Trial::new();
    trial.levels = [0x0090, 0];
    assert_eq!(trial.irq(), Some((0, 4, DEFAULTS[0])));
    trial.levels = [0, 0x8008];
    assert_eq!(trial.irq(), Some((1, 3, DEFAULTS[1])));
}

#[test]
fn slots_go_before_all_without_one() {
    let mut trial = Trial::new();
    trial.slot(0, 15, 9);
    trial.levels = [0x0201, 0];
    assert_eq!(trial.irq(), Some((0, 9, vector(0, 15))));
}

#[test]
fn all_of_vic0_goes_before_vic1() {
    let mut trial = Trial::new();
    trial.slot(1, 0, 0);
    trial.slot(0, 15, 2);
    trial.levels = [0x8004, 0x0001];
    assert_eq!(trial.irq(), Some((0, 2, vector(0, 15))));
    // The last of VIC0, without a slot, before the first of VIC1.
    trial.levels = [0x8000, 0x0001];
    assert_eq!(trial.irq(), Some((0, 15, DEFAULTS[0])));
    trial.levels = [0x0000, 0x0001];
    assert_eq!(trial.irq(), Some((1, 0, vector(1, 0))));
}

#[test]
fn a_slot_that_is_not_enabled_is_none() {
    let mut trial = Trial::new();
    trial.write(0, VC0R, 7);
    trial.slot(0, 12, 3);
    trial.levels = [0x0088, 0];
    assert_eq!(trial.irq(), Some((0, 3, vector(0, 12))));
    trial.levels = [0x0080, 0];
    assert_eq!(trial.irq(), Some((0, 7, DEFAULTS[0])));
    // All controls are 0 after reset: none of them names input 0.
    trial.levels = [0x0001, 0];
    assert_eq!(trial.irq(), Some((0, 0, DEFAULTS[0])));
}

#[test]
fn of_two_slots_for_one_input_the_lower_counts() {
    let mut trial = Trial::new();
    trial.slot(1, 2, 6);
    trial.slot(1, 1, 6);
    trial.slot(1, 0, 4);
    trial.levels = [0, 0x0040];
    assert_eq!(trial.irq(), Some((1, 6, vector(1, 1))));
    assert_eq!(trial.take(), vector(1, 1));
    assert_eq!(trial.ranks(), [33]);
    // The higher one is no second request.
    trial.write(1, VAR, 0);
    trial.take();
    assert_eq!(trial.irq(), None);
    assert_eq!(trial.ranks(), [33]);
}

#[test]
fn neither_disabled_nor_selected_for_fiq() {
    let mut trial = Trial::new();
    trial.slot(0, 0, 1);
    trial.slot(0, 1, 2);
    trial.levels = [0x0006, 0x0001];
    trial.write(0, INTECR, 0x0002);
    assert_eq!(trial.irq(), Some((0, 2, vector(0, 1))));
    trial.write(0, INTSR, 0x0004);
    assert_eq!(trial.irq(), Some((1, 0, DEFAULTS[1])));
    trial.write(1, INTSR, 0xFFFF);
    assert_eq!(trial.irq(), None);
}

#[test]
fn software_raises_as_an_input_does() {
    let mut trial = Trial::new();
    trial.slot(1, 3, 8);
    trial.write(1, SWINTR, 0x0100);
    assert_eq!(trial.irq(), Some((1, 8, vector(1, 3))));
    assert_eq!(trial.take(), vector(1, 3));
    trial.write(1, VAR, 0);
    // Taking and ending do not clear it.
    assert_eq!(trial.irq(), Some((1, 8, vector(1, 3))));
    trial.write(1, SWINTCR, 0x0100);
    assert_eq!(trial.irq(), None);
}

#[test]
fn every_rank_in_order() {
    let mut trial = Trial::new();
    // The eight highest inputs of both have slots, in the other order.
    for controller in 0..2 {
        for slot in 0..8 {
            trial.slot(controller, slot, 15 - slot);
        }
    }
    trial.levels = [0xFFFF; 2];
    let mut found = Vec::new();
    while let Some((controller, input, _)) = trial.irq() {
        found.push((controller, input));
        trial.levels[controller] &= !(1 << input);
    }
    let of_one = |controller| {
        let inputs = (8..16).rev().chain(0..8);
        inputs.map(move |input| (controller, input))
    };
    let wanted: Vec<_> = of_one(0).chain(of_one(1)).collect();
    assert_eq!(found, wanted);
}
