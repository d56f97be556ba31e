//! "Value 0 keeps it at 0, from the write on."

use super::{waiting, TIME_OUT, TX_TO};

#[test]
fn the_register_is_writable_and_has_16_bits() {
    let mut trial = waiting(0);
    for (value, kept) in [(1, 1), (0xFFFF, 0xFFFF), (0xABCD_1234, 0x1234)] {
        assert_eq!(trial.bench.write(TIME_OUT, value), 0);
        assert_eq!(trial.bench.read(TIME_OUT), (0, kept));
    }
    for offset in [0x47, 0x49, 0x4A, 0x4C, 0x8000_0048] {
        assert_eq!(trial.bench.write(offset, 1), 2);
        assert_eq!(trial.bench.read(offset), (2, 0));
    }
}

#[test]
fn writing_0_clears_the_count_at_once() {
    for value in [0, 0x0001_0000, 0xFFFF_0000, 0x8000_0000] {
        let mut trial = waiting(5);
        assert_eq!(trial.ticks(2), [1, 2]);
        assert_eq!(trial.bench.write(TIME_OUT, value), 0);
        assert_eq!(trial.bench.ticks, 0, "{value:x}");
        // So that a value written before the next tick has nothing left to count on.
        trial.bench.write(TIME_OUT, 5);
        assert_eq!(trial.tick(), 1);
    }
}

#[test]
fn writing_another_value_leaves_it() {
    for value in [1, 2, 3, 5, 0xFFFF, 0x0001_0001] {
        let mut trial = waiting(5);
        assert_eq!(trial.ticks(2), [1, 2]);
        trial.bench.write(TIME_OUT, value);
        assert_eq!(trial.bench.ticks, 2, "{value:x}");
        assert!(!trial.timed_out());
        let fires = value & 0xFFFF < 3;
        assert_eq!(trial.tick(), if fires { 0 } else { 3 });
        assert_eq!(trial.timed_out(), fires);
    }
}

#[test]
fn other_writes_leave_it() {
    for offset in (0..0x500).filter(|offset| *offset != TIME_OUT) {
        for value in [0, 5, u32::MAX, TX_TO] {
            let mut trial = waiting(5);
            assert_eq!(trial.ticks(2), [1, 2]);
            trial.bench.write(offset, value);
            assert_eq!(trial.bench.ticks, 2, "{offset:x}");
        }
    }
}
