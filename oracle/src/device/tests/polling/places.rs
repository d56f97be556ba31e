//! The flag: read with the place, by the word that led there, and left alone until the next place.

use super::{engine, other, polls, two, Side, GRANTED, LOW_BITS};
use crate::device::{Bench, Engine};

#[test]
fn after_reset_it_is_clear() {
    for window in [64, 60] {
        let (bench, _) = Bench::new(0, window);
        assert_eq!(bench.receiver, engine(false, 0, false));
        assert_eq!(bench.sender, engine(false, 0, false));
    }
}

#[test]
fn a_start_takes_bit_0_of_its_register() {
    for side in Side::BOTH {
        for bits in LOW_BITS {
            let mut trial = two(0, 0, [GRANTED; 2]);
            trial.start_by(side, 16 | bits);
            assert_eq!(side.of(&trial.bench), engine(true, 16, polls(bits)));
            assert_eq!(other(side).of(&trial.bench), Engine::default());
        }
    }
}

#[test]
fn only_a_start_takes_it() {
    for side in Side::BOTH {
        let mut trial = two(0, 0, [GRANTED; 2]);
        trial.bench.write(side.next(), 17);
        for value in [0, 1, 4] {
            trial.bench.write(side.start(), value);
            assert_eq!(side.of(&trial.bench), engine(false, 0, false));
        }
    }
}

#[test]
fn a_move_takes_bit_0_of_the_next_word() {
    for side in Side::BOTH {
        for bits in LOW_BITS {
            // The register has the other level, and so has the descriptor at the new place.
            let mut trial = two(bits, !bits & 3, [GRANTED; 2]);
            trial.start_by(side, !bits & 3);
            assert_eq!(trial.call(side), 0);
            assert_eq!(side.of(&trial.bench), engine(true, 16, polls(bits)));
            assert_eq!(trial.call(side), 0);
            assert_eq!(side.of(&trial.bench), engine(true, 0, !polls(bits)));
        }
    }
}

#[test]
fn the_end_of_a_chain_leads_nowhere() {
    for side in Side::BOTH {
        for bits in LOW_BITS {
            let mut trial = two(!bits & 3, 0, [GRANTED; 2]);
            trial.put(0, 64);
            trial.start_by(side, bits);
            assert_eq!(trial.call(side), 0);
            assert_eq!(side.of(&trial.bench), engine(false, 0, polls(bits)));
        }
    }
}

#[test]
fn a_start_write_to_a_running_engine_leaves_place_and_flag() {
    for side in Side::BOTH {
        for bits in LOW_BITS {
            let mut trial = two(bits, 0, [GRANTED; 2]);
            trial.start_by(side, !bits & 3);
            assert_eq!(trial.call(side), 0);
            for value in [5, 1, 0x00FF_FF05] {
                assert_eq!(trial.bench.write(side.start(), value), 0);
                assert_eq!(side.of(&trial.bench), engine(true, 16, polls(bits)));
            }
        }
    }
}

#[test]
fn stopping_leaves_place_and_flag() {
    for side in Side::BOTH {
        for bits in LOW_BITS {
            for value in [0, 4] {
                let mut trial = two(bits, 0, [GRANTED; 2]);
                trial.start_by(side, !bits & 3);
                assert_eq!(trial.call(side), 0);
                trial.bench.write(side.start(), value);
                assert_eq!(side.of(&trial.bench), engine(false, 16, polls(bits)));
            }
        }
    }
}

#[test]
fn a_chain_fault_leaves_the_flag() {
    for side in Side::BOTH {
        for bits in LOW_BITS {
            // Past the window, and a buffer that faults.
            let mut trial = two(0, 0, [GRANTED; 2]);
            trial.start_by(side, 0x1F4 | bits);
            assert_eq!(trial.call(side), 7);
            assert_eq!(side.of(&trial.bench), engine(false, 0x1F4, polls(bits)));
            let mut trial = two(0, 0, [GRANTED; 2]);
            trial.put(4, 0x101);
            trial.start_by(side, bits);
            assert_eq!(trial.call(side), 7);
            assert_eq!(side.of(&trial.bench), engine(false, 0, polls(bits)));
        }
    }
}

#[test]
fn the_register_written_behind_a_stop_waits_for_a_start() {
    for side in Side::BOTH {
        for bits in LOW_BITS {
            let mut trial = two(0, 0, [GRANTED; 2]);
            trial.start_by(side, bits);
            // While the engine runs its register cannot be written at all.
            assert_eq!(trial.bench.write(side.next(), 16 | !bits & 3), 15);
            trial.bench.write(side.start(), 0);
            assert_eq!(trial.bench.write(side.next(), 16 | !bits & 3), 0);
            assert_eq!(side.of(&trial.bench), engine(false, 0, polls(bits)));
            // "A second start takes the register's bit as it stands then."
            trial.bench.write(side.start(), 5);
            assert_eq!(side.of(&trial.bench), engine(true, 16, !polls(bits)));
        }
    }
}

#[test]
fn an_unchanged_register_starts_with_its_own_bit_again() {
    for side in Side::BOTH {
        for bits in LOW_BITS {
            let mut trial = two(!bits & 3, 0, [GRANTED; 2]);
            trial.start_by(side, bits);
            assert_eq!(trial.call(side), 0);
            trial.bench.write(side.start(), 0);
            assert_eq!(side.of(&trial.bench), engine(false, 16, !polls(bits)));
            trial.bench.write(side.start(), 5);
            assert_eq!(side.of(&trial.bench), engine(true, 0, polls(bits)));
        }
    }
}
