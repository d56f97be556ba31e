//! The lines `tick` and `counters`.

use super::written;
use crate::check;
use crate::hex;

/// A window with one granted send descriptor of 14 bytes at 0, which leads to itself with polling;
/// sending runs there, and the time-out is 2.
const WAITING: &str =
    "new 0 256\npoke 0 0e400000400000000100000000000100\nwrite 3c 1\nwrite 30 5\nwrite 48 2\n";

/// What is written behind those five lines.
fn behind(lines: &str) -> Vec<String> {
    written(&format!("{WAITING}{lines}"))[5..].to_vec()
}

#[test]
fn all_are_0_before_the_first_new_and_behind_each() {
    assert_eq!(
        written("counters\ntick\ncounters\nnew 0 64\ncounters\nnew 1 64\ncounters\n"),
        [
            "counters 0 0 0 0",
            "tick 0",
            "counters 0 0 0 0",
            "new 0",
            "counters 0 0 0 0",
            "new 1",
            "counters 0 0 0 0"
        ]
    );
}

#[test]
fn ticks_up_to_the_time_out() {
    assert_eq!(
        behind("tick\ncounters\ntick\ncounters\nread 8\ntick\ncounters\nread 8\nread 48\n"),
        [
            "tick 0",
            "counters 0 0 0 1",
            "tick 0",
            "counters 0 0 0 2",
            "read 0 00050001",
            "tick 0",
            "counters 0 0 0 0",
            "read 0 000d0001",
            "read 0 00000002"
        ]
    );
}

#[test]
fn a_tick_is_lent_what_a_grant_is() {
    assert_eq!(
        behind("tick\nlend 252\ntick\ncounters\nlend 260\ntick\nlend 256\ntick\ncounters\n"),
        [
            "tick 0",
            "lend",
            "tick 11",
            "counters 0 0 0 1",
            "lend",
            "tick 11",
            "lend",
            "tick 0",
            "counters 0 0 0 2"
        ]
    );
    assert_eq!(written("lend 4\ntick\nlend 0\ntick\n")[1], "tick 11");
}

#[test]
fn the_order_of_the_four() {
    let frame = hex::write(&check::closed(&[0xFF; 60]));
    // Receiving at the same descriptor, which is returned, so that three frames are lost; one is then
    // sent from there, and two ticks counted.
    let lines = format!(
        "poke c 00000000\nwrite 1c 1\nwrite 10 5\nburst 3 {frame} 0 64 0 64 0 64\ncounters\n\
         poke c 00000100\nsend 1518\npoke c 00000100\ntick\ntick\ncounters\nstate\n"
    );
    let answers = behind(&lines);
    assert_eq!(answers[4], "counters 0 3 0 0");
    assert_eq!(answers[10], "counters 0 3 1 2");
    assert_eq!(answers[11], "state 1 00000000 1 00000000");
    let lines = format!(
        "poke 0 7f000000400000000000000000000100\nwrite 1c 0\nwrite 10 5\nframe {frame}\n\
         counters\ncounters\nnew 0 64\ncounters\n"
    );
    let answers = behind(&lines);
    assert_eq!(answers[4..6], ["counters 1 0 0 0", "counters 1 0 0 0"]);
    assert_eq!(answers[7], "counters 0 0 0 0");
}
