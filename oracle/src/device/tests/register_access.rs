use super::{Trial, ENABLE, RESET_STATUS, RX_NEXT, RX_START, STATUS, TX_NEXT, TX_START};
use crate::device::Bench;

#[test]
fn reset_values() {
    let (bench, _) = Bench::new(0, 64);
    let values = [
        (0x04, 0),
        (0x08, 0x0005_0001),
        (0x10, 0),
        (0x1C, 0),
        (0x30, 0),
        (0x3C, 0),
        (0x400, 0),
        (0x404, 0x0000_FFFF),
        (0x408, 0xFFFF_FFFF),
        (0x40C, 0),
        (0x410, 0),
        (0x48, 0),
    ];
    for (offset, value) in values {
        assert_eq!(bench.read(offset), (0, value), "{offset:x}");
    }
    assert!(!bench.line());
}

#[test]
fn every_other_offset_is_not_modelled() {
    let (mut bench, _) = Bench::new(0, 64);
    let before = bench.clone();
    let modelled = [
        0x04, 0x08, 0x10, 0x1C, 0x30, 0x3C, 0x48, 0x400, 0x404, 0x408, 0x40C, 0x410,
    ];
    for offset in (0..0x500).chain([0x8000_0004, u32::MAX]) {
        if !modelled.contains(&offset) {
            assert_eq!(bench.read(offset), (2, 0));
            assert_eq!(bench.write(offset, u32::MAX), 2);
        }
    }
    assert_eq!(bench, before);
}

#[test]
fn reserved_bits_stay_zero() {
    let (mut bench, _) = Bench::new(0, 64);
    for (offset, kept) in [
        (0x04, 0x92CF_82EF),
        (0x10, 0x00FF_FFE5),
        (0x30, 0x00FF_FF25),
        (0x400, 0xC3FF_9FFD),
        (0x404, 0x0000_FFFF),
        (0x408, 0xFFFF_FFFF),
        (0x40C, 0xFFFF_FFFF),
        (0x410, 0xFFFF_FFFF),
        (0x48, 0x0000_FFFF),
    ] {
        assert_eq!(bench.write(offset, u32::MAX), 0);
        assert_eq!(bench.read(offset), (0, kept), "{offset:x}");
    }
    let (mut bench, _) = Bench::new(0, 64);
    for offset in [RX_NEXT, TX_NEXT] {
        bench.write(offset, u32::MAX);
        assert_eq!(bench.read(offset), (0, 0xFFFF_FFFD));
    }
}

#[test]
fn status_bits_are_cleared_by_ones_only() {
    let (mut bench, _) = Bench::new(0, 64);
    bench.write(STATUS, 0);
    assert_eq!(bench.read(STATUS).1, RESET_STATUS);
    bench.write(STATUS, 0x0001_8000);
    assert_eq!(bench.read(STATUS).1, 0x0004_0001);
}

#[test]
fn the_line_is_any_enabled_status_bit() {
    let (mut bench, _) = Bench::new(0, 64);
    bench.write(ENABLE, !RESET_STATUS);
    assert!(!bench.line());
    bench.write(ENABLE, 0x0004_0000);
    assert!(bench.line());
    bench.write(STATUS, 0x0004_0000);
    assert!(!bench.line());
}

#[test]
fn only_both_start_bits_start() {
    for value in [0, 1, 4] {
        let mut trial = Trial::new(64);
        trial.bench.write(RX_START, value);
        assert!(!trial.bench.receiver.running);
        assert_eq!(trial.bench.read(RX_START), (0, value));
    }
    let mut trial = Trial::new(64);
    trial.start_receiving(0x23);
    assert!(trial.bench.receiver.running);
    assert_eq!(trial.bench.receiver.place, 0x20);
    assert_eq!(trial.bench.read(RX_NEXT), (0, 0x21));
    assert!(!trial.bench.sender.running);
}

#[test]
fn a_running_engine_keeps_its_place_while_dma_enable_stays() {
    let mut trial = Trial::new(64);
    trial.start_sending(0x10);
    for value in [1, 5] {
        trial.bench.write(TX_START, value);
        assert!(trial.bench.sender.running);
        assert_eq!(trial.bench.sender.place, 0x10);
    }
    trial.bench.write(TX_START, 4);
    assert!(!trial.bench.sender.running);
    assert_eq!(trial.bench.sender.place, 0x10);
    trial.bench.write(TX_START, 1);
    assert!(!trial.bench.sender.running);
}

#[test]
fn a_next_descriptor_write_waits_for_its_own_engine_only() {
    let mut trial = Trial::new(64);
    trial.start_receiving(0x10);
    assert_eq!(trial.bench.write(RX_NEXT, 0x10), 15);
    assert_eq!(trial.bench.write(TX_NEXT, 0x20), 0);
    trial.bench.write(RX_START, 0);
    assert_eq!(trial.bench.write(RX_NEXT, 0x30), 0);
    assert_eq!(trial.bench.receiver.place, 0x10);
    trial.bench.write(RX_START, 5);
    assert_eq!(trial.bench.receiver.place, 0x30);
}

#[test]
fn a_bench_without_a_window_still_has_registers() {
    let (mut bench, number) = Bench::new(0x1234_5678, 60);
    assert_eq!(number, 1);
    assert_eq!((bench.window.base, bench.window.length), (0, 0));
    bench.write(RX_START, 5);
    assert_eq!(bench.receive(&mut [], &[]), 4);
    assert_eq!(bench.grant(&mut [], 0), 13);
    assert_eq!(bench.grant(&mut [0], 0), 11);
}
