use super::{Trial, GRANTED, NEXT_ENABLE, RESET_STATUS, TX_START};
use crate::check;

const TX_CURR_DONE: u32 = 0x8000_0000;
const TX_DONE: u32 = 0x0080_0000;

/// One descriptor at 0x80 of a window of 0x2000.
fn sender(control: u32, start: u32, status: u32) -> Trial {
    let mut trial = Trial::new(0x2000);
    trial.descriptor(0x80, control, start, 0x81, status);
    trial.start_sending(0x80);
    trial
}

#[test]
fn a_short_send_is_padded_and_closed() {
    let mut trial = sender(14 | NEXT_ENABLE, 0x100, 0xFFFF_FFFF);
    let mut expected = trial.memory.clone();
    expected[0x8C..0x90].copy_from_slice(&[0; 4]);
    let (number, output) = trial.send();
    assert_eq!(number, 0);
    assert_eq!(output[..14], [0xA5; 14]);
    assert_eq!(output[14..60], [0; 46]);
    assert!(check::right(&output));
    assert_eq!(output.len(), 64);
    assert_eq!(trial.memory, expected);
    assert_eq!(trial.status(), RESET_STATUS | TX_CURR_DONE);
    assert_eq!(trial.bench.sender.place, 0x80);
    assert_eq!(trial.send(), (8, vec![]));
    assert!(trial.bench.sender.running);
}

#[test]
fn the_end_of_a_chain() {
    let mut trial = sender(61, 0x100, GRANTED);
    assert_eq!(trial.send().1.len(), 65);
    assert_eq!(trial.status(), RESET_STATUS | TX_CURR_DONE | TX_DONE);
    assert_eq!(trial.send().0, 3);
    assert_eq!(trial.bench.read(TX_START), (0, 5));
}

#[test]
fn a_wrong_count_stops_but_stays_granted() {
    for count in [0, 13, 1_515, 4_095] {
        let mut trial = sender(count, 0x100, GRANTED);
        let before = trial.memory.clone();
        assert_eq!(trial.send(), (12, vec![]));
        assert_eq!(trial.memory, before);
        assert_eq!(trial.status(), RESET_STATUS);
        assert!(!trial.bench.sender.running);
    }
}

#[test]
fn buffers_go_by_the_counts_bytes() {
    let answer = |count, start| sender(count, start, GRANTED).send().0;
    assert_eq!(answer(60, 0x2000 - 60), 0);
    assert_eq!(answer(61, 0x2000 - 60), 7);
    assert_eq!(answer(64, 0x40), 0);
    assert_eq!(answer(65, 0x40), 7);
    assert_eq!(answer(64, 0x8C), 7);
    assert_eq!(answer(64, 0x90), 0);
    // The buffer before the length: 4,095 bytes outside are 7, inside 12.
    assert_eq!(answer(4_095, 0x1004), 7);
    assert_eq!(answer(4_095, 0x1000), 12);
}

#[test]
fn a_count_of_zero_faults_only_by_its_low_bits() {
    let answer = |start| sender(0, start, GRANTED).send().0;
    assert_eq!(answer(0xFFFF_FFFC), 12);
    assert_eq!(answer(0x80), 12);
    assert_eq!(answer(0x101), 7);
    assert_eq!(answer(0x102), 7);
}

#[test]
fn a_bad_buffer_counts_only_once_granted() {
    let mut trial = sender(60, 0x101, 0);
    assert_eq!(trial.send().0, 8);
    assert_eq!(trial.status(), RESET_STATUS);
}

#[test]
fn the_order_of_refusals() {
    let mut trial = sender(60, 0x100, GRANTED);
    trial.bench.write(TX_START, 0);
    let mut other = vec![0; 0x2004];
    assert_eq!(trial.bench.send(&mut other, &mut [0; 1_517]), (11, 0));
    let mut memory = trial.memory.clone();
    assert_eq!(trial.bench.send(&mut memory, &mut [0; 1_517]), (9, 0));
    assert_eq!(trial.bench.send(&mut memory, &mut [0; 1_518]), (3, 0));
    trial.start_sending(0x1FF4);
    assert_eq!(trial.bench.send(&mut memory, &mut [0; 1_518]), (7, 0));
    assert_eq!(memory, trial.memory);
}

#[test]
fn the_output_needs_1518_bytes_even_for_a_short_frame() {
    let mut trial = sender(60, 0x100, GRANTED);
    let mut memory = trial.memory.clone();
    assert_eq!(trial.bench.send(&mut memory, &mut [0; 1_517]), (9, 0));
    assert!(trial.bench.sender.running);
    assert_eq!(trial.send().0, 0);
}
