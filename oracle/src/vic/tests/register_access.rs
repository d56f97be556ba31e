//! Registers by their offsets: what a write reaches, and what is not there.

use super::*;

#[test]
fn all_is_zero_after_reset() {
    let mut pair = Pair::default();
    for controller in 0..2 {
        let singles = [
            ISR, FSR, RINTSR, INTSR, INTER, INTECR, SWINTR, SWINTCR, PER, VAR, DVAR,
        ];
        let slots = (0..16).flat_map(|slot| [VA0R + 4 * slot, VC0R + 4 * slot]);
        for offset in singles.into_iter().chain(slots) {
            assert_eq!(pair.read(controller, offset, [0; 2]), (0, 0), "{offset:x}");
        }
    }
    assert_eq!(pair, Pair::default());
}

#[test]
fn each_writable_register_by_its_mask() {
    for controller in 0..2 {
        for (offset, held) in [
            (INTSR, 0x0000_FFFF),
            (INTER, 0x0000_FFFF),
            (SWINTR, 0x0000_FFFF),
            (PER, 1),
            (DVAR, u32::MAX),
            (VA0R, u32::MAX),
            (VA0R + 0x3C, u32::MAX),
            (VC0R, 0x2F),
            (VC0R + 0x3C, 0x2F),
        ] {
            let mut pair = Pair::default();
            assert_eq!(pair.write(controller, offset, u32::MAX), 0);
            assert_eq!(pair.read(controller, offset, [0; 2]), (0, held));
            // The other controller has its own.
            assert_eq!(pair.read(1 - controller, offset, [0; 2]), (0, 0));
        }
    }
}

#[test]
fn upper_halves_are_ignored() {
    let mut trial = Trial::new();
    for offset in [INTSR, INTER, INTECR, SWINTR, SWINTCR, PER] {
        let before = trial.clone();
        trial.write(0, offset, 0xFFFF_0000);
        trial.write(1, offset, 0x0001_0000);
        assert_eq!(trial, before, "{offset:x}");
    }
    // A control that is written by its upper bits alone is cleared.
    trial.slot(0, 3, 9);
    trial.write(0, VC0R + 12, 0xFFFF_FFD0);
    assert_eq!(trial.read(0, VC0R + 12), 0);
}

#[test]
fn enable_and_software_are_set_and_cleared_bit_by_bit() {
    for (set, clear) in [(INTER, INTECR), (SWINTR, SWINTCR)] {
        let mut pair = Pair::default();
        let mut held = |offset, value| {
            assert_eq!(pair.write(1, offset, value), 0);
            assert_eq!(pair.read(1, clear, [0; 2]), (0, 0));
            pair.read(1, set, [0; 2]).1
        };
        assert_eq!(held(set, 0x00F1), 0x00F1);
        assert_eq!(held(set, 0x8000), 0x80F1);
        assert_eq!(held(set, 0), 0x80F1);
        assert_eq!(held(clear, 0x00C1), 0x8030);
        assert_eq!(held(clear, 0), 0x8030);
        assert_eq!(held(clear, 0x7FCF), 0x8030);
    }
}

#[test]
fn selection_and_protection_are_written_as_they_are() {
    let mut trial = Trial::new();
    trial.write(0, INTSR, 0xF0F0);
    trial.write(0, INTSR, 0x0F01);
    assert_eq!(trial.read(0, INTSR), 0x0F01);
    trial.write(0, PER, 3);
    assert_eq!(trial.read(0, PER), 1);
    trial.write(0, PER, 2);
    assert_eq!(trial.read(0, PER), 0);
}

#[test]
fn read_only_registers_take_a_write_and_do_nothing() {
    let mut trial = Trial::new();
    trial.levels = [0x1234, 0x8001];
    let before = trial.clone();
    for offset in [ISR, FSR, RINTSR] {
        for value in [0, u32::MAX] {
            trial.write(0, offset, value);
            trial.write(1, offset, value);
        }
    }
    assert_eq!(trial, before);
}

#[test]
fn what_is_not_there() {
    let mut trial = Trial::new();
    trial.levels = [0xFFFF; 2];
    let before = trial.clone();
    for offset in [
        0x001,
        0x002,
        0x003,
        0x024,
        0x028,
        0x02C,
        0x02F,
        0x031,
        0x032,
        0x033,
        0x035,
        0x038,
        0x0FC,
        0x0FF,
        0x101,
        0x13D,
        0x140,
        0x1FC,
        0x202,
        0x23E,
        0x240,
        0x1030,
        0x8000_0010,
        0xFFFF_F030,
        0xFFFF_FFFC,
    ] {
        for controller in 0..2 {
            let read = trial.pair.read(controller, offset, trial.levels);
            assert_eq!(read, (2, 0), "{offset:x}");
            assert_eq!(trial.pair.write(controller, offset, u32::MAX), 2);
        }
    }
    assert_eq!(trial, before);
}

#[test]
fn there_are_43_registers() {
    let there = |offset: &u32| Pair::default().write(0, *offset, 0) == 0;
    assert_eq!((0..0x1000).filter(there).count(), 11 + 16 + 16);
}
