//! M7 to M12 on whole calls; M1 to M6 are with the window.

use super::{frame, Trial, GRANTED, NEXT_ENABLE, OWN};

/// A receiver that takes every frame.
fn receiver() -> Trial {
    let mut trial = Trial::new(2_048);
    trial.descriptor(0, 2_000 | NEXT_ENABLE, 16, 0, GRANTED);
    trial.start_receiving(0);
    trial
}

fn sent(count: u32) -> (u32, usize) {
    let mut trial = Trial::new(2_048);
    trial.descriptor(0, count, 16, 0, GRANTED);
    trial.start_sending(0);
    let (number, output) = trial.send();
    (number, output.len())
}

#[test]
fn m7_and_m8_frame_lengths() {
    assert_eq!(receiver().receive(&frame(OWN, 63)), 4);
    assert_eq!(receiver().receive(&frame(OWN, 64)), 0);
    assert_eq!(receiver().receive(&frame(OWN, 1_518)), 0);
    assert_eq!(receiver().receive(&frame(OWN, 1_519)), 4);
}

#[test]
fn m9_almost_broadcast() {
    let almost = [0xFF, 0xFF, 0xFF, 0xFF, 0xFF, 0xFE];
    assert_eq!(receiver().receive(&frame(almost, 64)), 6);
    assert_eq!(receiver().receive(&frame([0xFF; 6], 64)), 0);
}

#[test]
fn m10_to_m12_send_lengths() {
    assert_eq!(sent(13), (12, 0));
    assert_eq!(sent(14), (0, 64));
    assert_eq!(sent(60), (0, 64));
    assert_eq!(sent(61), (0, 65));
    assert_eq!(sent(1_514), (0, 1_518));
    assert_eq!(sent(1_515), (12, 0));
}
