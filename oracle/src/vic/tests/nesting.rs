//! What is in service masks its own rank and all below it, and nothing above.

use super::*;

#[test]
fn the_current_and_lower_ones_are_masked() {
    let mut trial = Trial::new();
    for slot in 0..3 {
        trial.slot(0, slot, slot);
    }
    trial.levels = [0b010, 0];
    assert_eq!(trial.take(), vector(0, 1));
    // It does not interrupt itself, nor do lower ones.
    assert_eq!(trial.irq(), None);
    trial.levels = [0b110, 0xFFFF];
    assert_eq!(trial.irq(), None);
    trial.levels = [0b111, 0xFFFF];
    assert_eq!(trial.irq(), Some((0, 0, vector(0, 0))));
}

#[test]
fn seven_deep_and_back() {
    let mut trial = Trial::new();
    trial.slot(0, 0, 7);
    trial.slot(0, 9, 1);
    trial.slot(1, 0, 3);
    trial.slot(1, 15, 2);
    // From the lowest on: each with its controller, input, vector and rank.
    let steps = [
        (1, 14, DEFAULTS[1], 62),
        (1, 0, DEFAULTS[1], 48),
        (1, 2, vector(1, 15), 47),
        (1, 3, vector(1, 0), 32),
        (0, 4, DEFAULTS[0], 20),
        (0, 1, vector(0, 9), 9),
        (0, 7, vector(0, 0), 0),
    ];
    for (controller, input, vector, _) in steps {
        trial.levels[controller] |= 1 << input;
        assert_eq!(trial.irq(), Some((controller, input, vector)));
        assert_eq!(trial.take(), vector);
        assert_eq!(trial.irq(), None);
    }
    assert_eq!(trial.ranks(), steps.map(|(.., rank)| rank));
    for (controller, input, vector, _) in steps.into_iter().rev() {
        // Its request is raised still, and is the highest again when it is ended.
        trial.write(controller, VAR, 0);
        assert_eq!(trial.irq(), Some((controller, input, vector)));
        trial.levels[controller] &= !(1 << input);
        assert_eq!(trial.irq(), None);
    }
    assert_eq!(trial.ranks(), []);
}

#[test]
fn a_request_that_falls_stays_in_service() {
    let mut trial = Trial::new();
    trial.levels = [0x0010, 0];
    trial.take();
    trial.levels = [0x0020, 0];
    assert_eq!(trial.irq(), None);
    trial.write(0, VAR, 0);
    assert_eq!(trial.irq(), Some((0, 5, DEFAULTS[0])));
}

#[test]
fn later_writes_to_controls_do_not_move_it() {
    let mut trial = Trial::new();
    trial.slot(0, 8, 3);
    trial.levels = [0x0008, 0];
    assert_eq!(trial.take(), vector(0, 8));
    // Input 3 gets a higher slot: what is in service stays at 8, so the request is above it.
    trial.slot(0, 4, 3);
    assert_eq!(trial.irq(), Some((0, 3, vector(0, 4))));
    assert_eq!(trial.take(), vector(0, 4));
    assert_eq!(trial.ranks(), [8, 4]);
    assert_eq!(trial.irq(), None);
    trial.write(0, VAR, 0);
    trial.write(0, VAR, 0);
    assert_eq!(trial.ranks(), []);
    // And the reverse: it loses its slots, and those between are masked still.
    assert_eq!(trial.take(), vector(0, 4));
    trial.write(0, VC0R + 4 * 4, 0);
    trial.write(0, VC0R + 4 * 8, 0);
    trial.slot(0, 5, 1);
    trial.levels = [0x000A, 0];
    assert_eq!(trial.irq(), None);
    trial.slot(0, 3, 1);
    assert_eq!(trial.irq(), Some((0, 1, vector(0, 3))));
}

#[test]
fn disabling_what_is_in_service_ends_nothing() {
    let mut trial = Trial::new();
    trial.levels = [0x0002, 0];
    trial.take();
    trial.write(0, INTECR, 0xFFFF);
    trial.write(0, INTSR, 0xFFFF);
    assert_eq!(trial.ranks(), [17]);
    trial.levels = [0, 0x0001];
    assert_eq!(trial.irq(), None);
}

#[test]
fn all_ranks_can_be_in_service() {
    // One input of each controller for its slots, the others without one; slots change in between.
    let mut trial = Trial::new();
    for controller in [1, 0] {
        for input in (0..16).rev() {
            trial.levels[controller] = 1 << input;
            assert_eq!(trial.take(), DEFAULTS[controller]);
        }
        for slot in (0..16).rev() {
            trial.slot(controller, slot, 0);
            assert_eq!(trial.take(), vector(controller, slot));
        }
    }
    let all: Vec<usize> = (0..64).rev().collect();
    assert_eq!(trial.ranks(), all);
    trial.levels = [0xFFFF; 2];
    assert_eq!(trial.irq(), None);
}
