use super::{Trial, GRANTED, NEXT_ENABLE, POLLING, RESERVED};

/// A sound ring of three: descriptors at 0, 16 and 32, buffers of 1,520 bytes from 48 on.
fn three() -> Trial {
    let mut trial = Trial::new(48 + 3 * 1_520);
    for place in 0..3 {
        trial.descriptor(
            16 * place as usize,
            1_520 | NEXT_ENABLE,
            48 + 1_520 * place,
            (16 * ((place + 1) % 3)) | POLLING,
            0,
        );
    }
    trial
}

fn sound(trial: &Trial, count: u32, first: u32) -> bool {
    trial.bench.ring(&trial.memory, count, first)
}

/// Whether the ring is still sound with one word changed.
fn sound_with(address: usize, word: u32) -> bool {
    let mut trial = three();
    trial.put(address, word);
    sound(&trial, 3, 0)
}

#[test]
fn a_sound_ring_from_any_of_its_descriptors() {
    let trial = three();
    for first in [0, 16, 32] {
        assert!(sound(&trial, 3, first));
        for count in [0, 1, 2, 4, 6, 33, u32::MAX] {
            assert!(!sound(&trial, count, first));
        }
    }
    assert!(!sound(&trial, 3, 1));
    assert!(!sound(&trial, 3, 48));
}

#[test]
fn what_makes_no_difference() {
    assert!(sound_with(0, 1_518 | NEXT_ENABLE | 0xFFFF_B000));
    assert!(sound_with(8, 16 | POLLING | RESERVED));
    assert!(sound_with(12, GRANTED | 64));
}

#[test]
fn what_breaks_a_ring() {
    assert!(!sound_with(0, 1_520));
    assert!(!sound_with(0, 1_517 | NEXT_ENABLE));
    assert!(!sound_with(0, 1_521 | NEXT_ENABLE));
    assert!(!sound_with(4, 49));
    assert!(!sound_with(4, 44));
    assert!(!sound_with(4, 52));
    assert!(!sound_with(32 + 4, 48 + 2 * 1_520 + 4));
    assert!(!sound_with(8, POLLING));
    assert!(!sound_with(8, 32 | POLLING));
    assert!(!sound_with(8, 20 | POLLING));
    assert!(!sound_with(8, 0xFFFF_FFF0 | POLLING));
}

#[test]
fn one_descriptor_without_polling_breaks_a_ring() {
    for (address, next) in [(0, 16), (16, 32), (32, 0)] {
        assert!(sound_with(address + 8, next | POLLING));
        assert!(!sound_with(address + 8, next));
        // The reserved bit does not stand in for it.
        assert!(!sound_with(address + 8, next | RESERVED));
    }
}

#[test]
fn a_ring_is_judged_by_its_next_words_alone() {
    // Neither the register nor the flag of the engine that stands there matters.
    for first in [0, POLLING] {
        let mut trial = three();
        trial.start_receiving(first);
        assert!(sound(&trial, 3, 0));
        trial.put(24, 32);
        assert!(!sound(&trial, 3, 0));
    }
}

#[test]
fn lent_memory_of_another_length() {
    let trial = three();
    let memory = &trial.memory;
    assert!(!trial.bench.ring(&memory[..memory.len() - 4], 3, 0));
}

#[test]
fn a_ring_of_one_points_to_itself() {
    let mut trial = Trial::new(16 + 1_520);
    trial.descriptor(1_520, 1_518 | NEXT_ENABLE, 0, 1_520 | POLLING, 0);
    assert!(sound(&trial, 1, 1_520));
    assert!(!sound(&trial, 2, 1_520));
    trial.put(1_528, POLLING);
    assert!(!sound(&trial, 1, 1_520));
    trial.put(1_528, 1_520);
    assert!(!sound(&trial, 1, 1_520));
}

#[test]
fn the_greatest_ring() {
    let mut trial = Trial::new(32 * 1_536);
    for place in 0..32 {
        let address = 1_536 * place;
        let next = (1_536 * ((place + 1) % 32)) | POLLING;
        trial.descriptor(address as usize, 1_520 | NEXT_ENABLE, address + 16, next, 0);
    }
    assert!(sound(&trial, 32, 0));
    assert!(!sound(&trial, 31, 0));
}
