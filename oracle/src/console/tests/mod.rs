//! The console's own rules; what the calls do is tested with the device.

mod bursts;
mod counters;
mod interrupts;

use super::*;

fn written(input: &str) -> Vec<String> {
    output(input.as_bytes())
}

#[test]
fn empty_lines_and_comments_write_nothing_but_count() {
    assert_eq!(written("\n# a comment\nline\nbad\n"), ["line 0", "error 4"]);
}

#[test]
fn a_last_line_without_a_line_feed_counts() {
    assert_eq!(written("line"), ["line 0"]);
    assert_eq!(written("line\n"), ["line 0"]);
    assert!(written("").is_empty());
}

#[test]
fn malformed_lines_change_nothing() {
    let lines = [
        "New 0 64",
        " new 0 64",
        "new 0 64 ",
        "new  0 64",
        "new 0",
        "new 0 64 0",
        "new g 64",
        "new 0 6x",
        "new 000000000 64",
        "new 0 000000064",
        "new 0 64\r",
        "new\t0 64",
        "lend 65545",
        "send 65537",
        "run 1 65537",
        "peek 0 65537",
        "poke 0 0",
        "frame",
        "check 0",
        "state 1",
        "tick 0",
        "tick ",
        "ticks",
        "counters 0",
        "counter",
    ];
    for line in lines {
        assert_eq!(
            written(&format!("{line}\nstate\ncheck\npeek 0 1\n")),
            [
                "error 1",
                "state 0 00000000 0 00000000",
                "check 00000000",
                "peek outside"
            ],
            "{line}"
        );
    }
}

#[test]
fn the_longest_line() {
    let longest = format!("frame {}", "00".repeat(2_045));
    assert_eq!(longest.len(), 4_096);
    let longer = format!("{longest}0");
    assert_eq!(
        written(&format!("{longest}\n{longer}\n{longer}0\n")),
        ["frame 3", "error 2", "error 3"]
    );
}

#[test]
fn before_the_first_new_nothing_is_lent() {
    assert_eq!(
        written("frame -\nlend 4\nframe -\nring 1 0\npoke 0 -\npoke 1 -\npoke 0 00\n"),
        [
            "frame 3",
            "lend",
            "frame 11",
            "ring no",
            "poke ok",
            "poke outside",
            "poke outside"
        ]
    );
}

#[test]
fn a_window_not_allowed_takes_the_window_away() {
    assert_eq!(
        written("new 0 64\npoke 3F aB\npeek 3e 2\npeek 40 0\nnew 2 64\npeek 0 1\ngrant 0\ncheck\n"),
        [
            "new 0",
            "poke ok",
            "peek 00ab",
            "peek -",
            "new 1",
            "peek outside",
            "grant 13",
            "check 00000000"
        ]
    );
}

#[test]
fn firmware_reaches_the_window_whatever_is_lent() {
    assert_eq!(
        written(
            "new 100 64\nlend 68\npoke 13f 01\npoke 140 01\ngrant 100\nlend 64\ngrant 100\n\
                 peek 10c 4\npoke ff 01\n"
        ),
        [
            "new 0",
            "lend",
            "poke ok",
            "poke outside",
            "grant 11",
            "lend",
            "grant 0",
            "peek 00000100",
            "poke outside"
        ]
    );
}

#[test]
fn a_new_bench_forgets_memory_and_lending() {
    assert_eq!(
        written("new 0 64\npoke 0 ff\nlend 60\nnew 0 68\npeek 0 1\ngrant 0\n"),
        ["new 0", "poke ok", "lend", "new 0", "peek 00", "grant 0"]
    );
}
