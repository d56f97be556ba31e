use super::*;
use crate::console::Console;

/// What a script counts.
fn tally(script: &str) -> Tally {
    let mut tally = Tally::default();
    let mut console = Console::new();
    let mut watch = Watch::default();
    for line in script.lines() {
        let answer = console.take(line.as_bytes()).unwrap();
        watch.count(&mut tally, line.as_bytes(), &answer, &console);
    }
    tally
}

/// One granted send descriptor at 0 that leads to itself, and this time-out.
fn waiting(value: &str) -> String {
    format!(
        "new 0 256\npoke 0 0e400000400000000100000000000100\nwrite 3c 1\nwrite 30 5\n\
         write 48 {value}\n"
    )
}

fn met(script: &str, kind: &str) -> usize {
    let name = names()
        .map(|(name, _)| name)
        .find(|name| name.ends_with(kind));
    tally(script).count(&name.expect(kind))
}

#[test]
fn a_time_out_is_seen_by_the_line_behind_it() {
    let script = waiting("1") + "tick\ntick\n";
    assert_eq!(met(&(script.clone() + "read 8\n"), "set by a tick"), 1);
    assert_eq!(
        met(&(script.clone() + "counters\n"), "0 behind a time-out"),
        1
    );
    assert_eq!(
        met(
            &(script.clone() + "tick\ncounters\n"),
            "0 behind a time-out"
        ),
        0
    );
    assert_eq!(
        met(
            &(script.clone() + "write 8 80000\nread 8\n"),
            "set by a tick"
        ),
        0
    );
    let again = script + "write 8 80000\ntick\ncounters\ntick\nread 8\n";
    assert_eq!(met(&again, "going up again behind a time-out"), 1);
    assert_eq!(met(&again, "counted from the last time-out on"), 1);
}

#[test]
fn each_cause_that_clears() {
    let counted = waiting("5") + "tick\n";
    for (lines, kind) in [
        ("write 30 0\ntick\n", "tick, sending stopped"),
        ("poke c 00000000\ntick\n", "tick, descriptor returned"),
        (
            "write 30 0\nwrite 3c f4\nwrite 30 5\ntick\n",
            "tick, descriptor outside",
        ),
        ("send 1518\n", "cleared by a send"),
        ("run 2 9000\n", "cleared by a step run"),
        ("write 48 0\n", "cleared by writing 0"),
        (
            "write 48 10000\n",
            "cleared by writing 0 with bits above the sixteen",
        ),
        ("write 48 2\n", "left by writing another value"),
        ("lend 0\ntick\n", "left by a tick that 11 refused"),
        ("send 1517\n", "left by a send that 9 refused"),
        (
            "poke c 00000000\nsend 1518\n",
            "left by a send that 8 refused",
        ),
    ] {
        let script = format!("{counted}{lines}");
        assert_eq!(
            met(&(script.clone() + "state\ncounters\n"), kind),
            1,
            "{kind}"
        );
        assert_eq!(
            met(&(script + "lend 256\ntick\ncounters\n"), kind),
            0,
            "{kind}"
        );
    }
}

#[test]
fn nothing_is_cleared_where_there_was_no_count() {
    let script = waiting("5") + "write 30 0\ntick\ncounters\n";
    assert_eq!(met(&script, "tick, sending stopped"), 0);
}
