//! Levels, and the Ethernet controller's among them.

use super::super::with_ethernet;
use super::*;

#[test]
fn the_line_replaces_input_11_of_vic0() {
    assert_eq!(with_ethernet([0, 0], true), [0x0800, 0]);
    assert_eq!(with_ethernet([0xFFFF, 0xFFFF], false), [0xF7FF, 0xFFFF]);
    assert_eq!(with_ethernet([0xF7FF, 0], true), [0xFFFF, 0]);
    assert_eq!(with_ethernet([0x1000, 0x0800], false), [0x1000, 0x0800]);
}

#[test]
fn nothing_is_latched() {
    let mut trial = Trial::new();
    trial.levels = [0x0040, 0x0040];
    assert_eq!(trial.irq(), Some((0, 6, DEFAULTS[0])));
    trial.levels = [0; 2];
    assert_eq!(trial.irq(), None);
    assert_eq!(trial.read(0, RINTSR), 0);
    assert_eq!(trial.take(), DEFAULTS[0]);
    assert_eq!(trial.ranks(), []);
}
