//! The burst's line; what the call does is tested with the device.

use super::written;
use crate::{check, hex};

/// A window of 4,096 bytes that takes every frame: two descriptors in a ring, the first granted.
const RECEIVING: &str = "new 0 4096\nwrite 400 80000000\n\
    poke 0 50400000000100001000000000000100\npoke 10 50400000000200000000000000000000\n\
    write 10 5\n";
const ANSWERS: usize = 5;

/// What a receiving bench answers to one line more.
fn answered(line: &str) -> String {
    let mut lines = written(&format!("{RECEIVING}{line}\n"));
    assert_eq!(lines.len(), ANSWERS + 1);
    lines.remove(ANSWERS)
}

/// A frame of 64 bytes, as a word.
fn frame() -> String {
    hex::write(&check::closed(&[7; 60]))
}

#[test]
fn the_number_and_then_the_answers() {
    let frame = frame();
    assert_eq!(
        answered(&format!("burst 4 {frame} 0 64 1 63 0 65 0 64")),
        "burst 0 0 4 16 8"
    );
    assert_eq!(
        answered(&format!(
            "burst 02 {} 00000000 0064 64 0",
            frame.to_uppercase()
        )),
        "burst 0 0 4"
    );
    assert_eq!(answered("burst 1 00 99999999 99999999"), "burst 0 16");
}

#[test]
fn no_pairs_and_no_bytes() {
    assert_eq!(answered("burst 0 -"), "burst 0");
    assert_eq!(answered("burst 0 00"), "burst 0");
    assert_eq!(answered("burst 3 - 0 0 1 0 0 1"), "burst 0 4 16 16");
}

#[test]
fn the_answer_list_of_a_refused_burst_is_left() {
    assert_eq!(answered("burst 2 -"), "burst 16 99 99");
    assert_eq!(answered("burst 0 - 0 0"), "burst 16");
    assert_eq!(answered("burst 1 - 0 0 0 0"), "burst 16 99");
}

#[test]
fn the_console_takes_two_pairs_more_than_the_bench() {
    for (count, number, answer) in [(64, "0", " 4"), (65, "16", " 99"), (66, "16", " 99")] {
        let line = format!("burst {count} -{}", " 0 0".repeat(count));
        let wanted = format!("burst {number}{}", answer.repeat(count));
        assert_eq!(answered(&line), wanted);
    }
    let line = format!("burst 66 -{}", " 0 0".repeat(67));
    assert_eq!(answered(&line), "error 6");
}

#[test]
fn malformed_bursts_change_nothing() {
    let frame = frame();
    let lines = [
        "burst".to_string(),
        "burst 0".to_string(),
        "burst 67 -".to_string(),
        "burst 000000000 -".to_string(),
        "burst a -".to_string(),
        "burst - -".to_string(),
        "burst 0 0".to_string(),
        "burst 0 - ".to_string(),
        "Burst 0 -".to_string(),
        format!("burst 1 {frame} 0"),
        format!("burst 2 {frame} 0 64 0"),
        format!("burst 1 {frame} 0 64 "),
        format!("burst 1 {frame} 0  64"),
        format!("burst 1  {frame} 0 64"),
        format!("burst 1 {frame} 0 4a"),
        format!("burst 1 {frame} a 64"),
        format!("burst 1 {frame} 0 000000064"),
        format!("burst 1 {frame} 000000000 64"),
        format!("burst 1 {frame} 0 -64"),
        format!("burst 1 {frame} - 64"),
        format!("burst 1 {frame} 0,64"),
        format!("burst 1 {frame}0 0 64"),
    ];
    let look = "state\ncheck\nread 8\n";
    let before = &written(&format!("{RECEIVING}{look}"))[ANSWERS..];
    for line in lines {
        let after = &written(&format!("{RECEIVING}{line}\n{look}"))[ANSWERS..];
        assert_eq!(after[0], "error 6", "{line}");
        assert_eq!(after[1..], *before, "{line}");
    }
}

#[test]
fn the_longest_burst() {
    // The pair's zeros in front make up what the store's pairs of digits cannot.
    let store = "00".repeat(2_040);
    let longest = format!("burst 1 {store} 0000 64");
    assert_eq!(longest.len(), 4_096);
    assert_eq!(answered(&longest), "burst 0 5");
    let longer = format!("burst 1 {store} 00000 64");
    assert_eq!(answered(&longer), "error 6");
}
