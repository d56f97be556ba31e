//! FIQ.

use super::*;

#[test]
fn high_if_one_of_either_controller_is_selected_and_enabled() {
    let mut trial = Trial::new();
    trial.levels = [0xFFFF; 2];
    assert!(!trial.pair.fiq(trial.levels));
    for controller in 0..2 {
        let mut trial = trial.clone();
        trial.write(controller, INTSR, 0x0200);
        assert!(trial.pair.fiq(trial.levels));
        trial.write(controller, INTECR, 0x0200);
        assert!(!trial.pair.fiq(trial.levels));
        trial.write(controller, INTER, 0x0200);
        trial.levels[controller] = 0xFDFF;
        assert!(!trial.pair.fiq(trial.levels));
        trial.write(controller, SWINTR, 0x0200);
        assert!(trial.pair.fiq(trial.levels));
    }
}

#[test]
fn what_is_in_service_does_not_mask_it() {
    let mut trial = Trial::new();
    trial.slot(0, 0, 0);
    trial.write(1, INTSR, 0x8000);
    trial.levels = [1, 0];
    trial.take();
    assert!(!trial.pair.fiq(trial.levels));
    trial.levels = [1, 0x8000];
    assert!(trial.pair.fiq(trial.levels));
    // And it is taken into service by nothing.
    trial.write(0, VAR, 0);
    trial.levels = [0, 0x8000];
    assert_eq!(trial.take(), DEFAULTS[0]);
    assert_eq!(trial.ranks(), []);
    assert!(trial.pair.fiq(trial.levels));
}
