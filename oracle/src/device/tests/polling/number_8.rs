//! Number 8: with the flag the engine looks again, without it it stops.

use super::super::{frame, Trial, OWN, POLLING, RESERVED, RESET_STATUS};
use super::{engine, other, polls, two, Side, GRANTED, LOW_BITS};

/// PACKET_LOST on receiving, nothing on sending, whether the engine stops or not.
fn status_after(side: Side) -> u32 {
    match side {
        Side::Receiving => RESET_STATUS | 0x0000_0020,
        Side::Sending => RESET_STATUS,
    }
}

/// Nothing granted, the engine started at 0 by a word with these low bits.
fn returned(side: Side, bits: u32) -> Trial {
    let mut trial = two(!bits & 3, !bits & 3, [0; 2]);
    trial.start_by(side, bits);
    trial
}

#[test]
fn with_polling_the_engine_looks_again() {
    for side in Side::BOTH {
        let mut trial = returned(side, POLLING);
        let before = trial.memory.clone();
        for _ in 0..3 {
            assert_eq!(trial.call(side), 8);
            assert_eq!(side.of(&trial.bench), engine(true, 0, true));
        }
        assert_eq!(trial.memory, before);
        assert_eq!(trial.status(), status_after(side));
        assert_eq!(trial.bench.grant(&mut trial.memory, 0), 0);
        assert_eq!(trial.call(side), 0);
        assert_eq!(side.of(&trial.bench).place, 16);
    }
}

#[test]
fn without_polling_it_also_stops() {
    for side in Side::BOTH {
        let mut trial = returned(side, 0);
        let before = trial.memory.clone();
        assert_eq!(trial.call(side), 8);
        // Place and flag stay; neither RX_DONE nor RX_NEXT is raised, nor DMA enable cleared.
        assert_eq!(side.of(&trial.bench), engine(false, 0, false));
        assert_eq!(trial.memory, before);
        assert_eq!(trial.status(), status_after(side));
        assert_eq!(trial.bench.read(side.start()), (0, 5));
        assert_eq!(trial.bench.read(side.next()), (0, 0));
        // A grant comes too late.
        assert_eq!(trial.bench.grant(&mut trial.memory, 0), 0);
        assert_eq!(trial.call(side), 3);
        assert_eq!(trial.status(), status_after(side));
        // "An engine that stopped needs a new start write."
        trial.bench.write(side.start(), 5);
        assert_eq!(trial.call(side), 0);
        assert_eq!(side.of(&trial.bench).place, 16);
    }
}

#[test]
fn bit_0_decides_at_the_place_of_a_start() {
    for side in Side::BOTH {
        for bits in LOW_BITS {
            let mut trial = returned(side, bits);
            assert_eq!(trial.call(side), 8);
            assert_eq!(side.of(&trial.bench), engine(polls(bits), 0, polls(bits)));
        }
    }
}

#[test]
fn bit_0_decides_at_the_place_of_a_move() {
    for side in Side::BOTH {
        for bits in LOW_BITS {
            let mut trial = two(bits, !bits & 3, [GRANTED, 0]);
            trial.start_by(side, !bits & 3);
            assert_eq!(trial.call(side), 0);
            assert_eq!(trial.call(side), 8);
            assert_eq!(side.of(&trial.bench), engine(polls(bits), 16, polls(bits)));
        }
    }
}

#[test]
fn later_changes_of_the_memory_do_not_count() {
    for side in Side::BOTH {
        for bits in LOW_BITS {
            let mut trial = two(bits, bits, [GRANTED, 0]);
            trial.start_by(side, bits);
            assert_eq!(trial.call(side), 0);
            // The word that led here, and the one that would lead on.
            trial.put(8, 16 | !bits & 3);
            trial.put(24, !bits & 3);
            assert_eq!(trial.call(side), 8);
            assert_eq!(side.of(&trial.bench), engine(polls(bits), 16, polls(bits)));
        }
    }
}

#[test]
fn changes_before_the_move_count() {
    for side in Side::BOTH {
        for bits in LOW_BITS {
            let mut trial = two(bits, bits, [GRANTED, 0]);
            trial.start_by(side, bits);
            trial.put(8, 16 | !bits & 3);
            assert_eq!(trial.call(side), 0);
            assert_eq!(trial.call(side), 8);
            let left = engine(!polls(bits), 16, !polls(bits));
            assert_eq!(side.of(&trial.bench), left);
        }
    }
}

#[test]
fn a_stop_and_a_new_start_take_the_register_as_it_stands_then() {
    for side in Side::BOTH {
        let mut trial = returned(side, 0);
        assert_eq!(trial.call(side), 8);
        // Stopped, so that the register can be written.
        assert_eq!(trial.bench.write(side.next(), 16 | POLLING), 0);
        assert_eq!(trial.call(side), 3);
        trial.bench.write(side.start(), 5);
        for _ in 0..2 {
            assert_eq!(trial.call(side), 8);
            assert_eq!(side.of(&trial.bench), engine(true, 16, true));
        }
        // Looking again is running.
        assert_eq!(trial.bench.write(side.next(), 0), 15);
        trial.bench.write(side.start(), 0);
        assert_eq!(trial.bench.write(side.next(), RESERVED), 0);
        trial.bench.write(side.start(), 5);
        assert_eq!(trial.call(side), 8);
        assert_eq!(side.of(&trial.bench), engine(false, 0, false));
    }
}

#[test]
fn the_other_engine_goes_on() {
    for side in Side::BOTH {
        let mut trial = two(0, 0, [0; 2]);
        trial.start_by(Side::Receiving, 0);
        trial.start_by(Side::Sending, 0);
        let before = other(side).of(&trial.bench);
        assert_eq!(trial.call(side), 8);
        assert_eq!(side.of(&trial.bench), engine(false, 0, false));
        assert_eq!(other(side).of(&trial.bench), before);
        assert!(before.running);
    }
}

#[test]
fn each_engine_has_a_flag_of_its_own() {
    for bits in LOW_BITS {
        let mut trial = two(0, 0, [0; 2]);
        trial.start_by(Side::Receiving, bits);
        trial.start_by(Side::Sending, !bits & 3);
        for side in Side::BOTH {
            assert_eq!(trial.call(side), 8);
        }
        assert_eq!(trial.bench.receiver.running, polls(bits));
        assert_eq!(trial.bench.sender.running, !polls(bits));
    }
}

#[test]
fn what_comes_before_8_does_not_stop() {
    let mut trial = returned(Side::Receiving, 0);
    let mut wrong = frame(OWN, 64);
    wrong[30] ^= 4;
    let before = trial.clone();
    for (number, bytes) in [(4, frame(OWN, 63)), (5, wrong), (6, frame([4; 6], 64))] {
        assert_eq!(trial.receive(&bytes), number);
        assert_eq!(trial.bench, before.bench);
    }
    let good = frame(OWN, 64);
    assert_eq!(trial.bench.receive(&mut [0; 0x1FC], &good), 11);
    assert_eq!(trial.bench, before.bench);
    let mut trial = returned(Side::Sending, 0);
    let before = trial.clone();
    let memory = &mut trial.memory;
    assert_eq!(trial.bench.send(memory, &mut [0; 1_517]), (9, 0));
    assert_eq!(trial.bench.send(&mut [], &mut [0; 1_518]), (11, 0));
    assert_eq!(trial.bench, before.bench);
}
