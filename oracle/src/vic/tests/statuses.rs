//! Raw, IRQ and FIQ status.

use super::*;

#[test]
fn raw_is_inputs_or_software() {
    let mut trial = Trial::new();
    trial.levels = [0x00F0, 0x0001];
    trial.write(0, SWINTR, 0x0018);
    assert_eq!(trial.read(0, RINTSR), 0x00F8);
    assert_eq!(trial.read(1, RINTSR), 0x0001);
    trial.write(0, SWINTCR, 0x0010);
    // The input is high still.
    assert_eq!(trial.read(0, RINTSR), 0x00F8);
    trial.levels = [0; 2];
    assert_eq!(trial.read(0, RINTSR), 0x0008);
    assert_eq!(trial.read(1, RINTSR), 0x0000);
}

#[test]
fn statuses_by_enable_and_selection() {
    let mut trial = Trial::new();
    trial.write(1, INTECR, 0xFFFF);
    trial.write(1, INTER, 0b0011);
    trial.write(1, INTSR, 0b0101);
    trial.levels = [0, 0b1111];
    assert_eq!(trial.read(1, ISR), 0b0010);
    assert_eq!(trial.read(1, FSR), 0b0001);
    assert_eq!(trial.read(1, RINTSR), 0b1111);
    trial.levels = [0, 0b0100];
    assert_eq!(trial.read(1, ISR), 0);
    assert_eq!(trial.read(1, FSR), 0);
}

#[test]
fn service_does_not_mask_a_status() {
    let mut trial = Trial::new();
    trial.levels = [0x0003, 0x8000];
    assert_eq!(trial.take(), DEFAULTS[0]);
    assert_eq!(trial.irq(), None);
    assert_eq!(trial.read(0, ISR), 0x0003);
    assert_eq!(trial.read(1, ISR), 0x8000);
}
