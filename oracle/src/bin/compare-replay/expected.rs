//! What a whole comparison must have met, and how often.

use crate::scripts::KINDS;
use crate::{large, lengths, limits, targets};
use oracle::files::Contents;
use oracle::taken::Taken;
use oracle::tally::Tally;
use oracle::tapes::{FEATURES, MEMORIES};
use oracle::ungranted::Ungranted;

/// How often most kinds must be met in a whole comparison, and the few that are made by hand alone.
const LEAST: usize = 10;
const SELDOM: usize = 1;
/// How often a day must be recorded and replayed.
const OFTEN: usize = 100;

pub const RECORDED: &str = "record: recorded";
pub const REPLAYED: &str = "replay of a recorded day";
/// For a user who may write everywhere no folder is closed.
pub const CLOSED_LEFT_OUT: &str = "left out: targets in a closed folder";

pub fn script_name(kind: &str) -> String {
    format!("script: {kind}")
}

pub fn limit_name(kind: &str) -> String {
    format!("script at a limit: {kind}")
}

pub fn long_name(kind: &str) -> String {
    format!("long: {kind}")
}

pub fn length_name(kind: &str) -> String {
    format!("files of limited length: {kind}")
}

/// A target of a good script, by whether one of the two files was there before.
pub fn target_name(kind: &str, old: bool) -> String {
    match old {
        false => format!("target: {kind}"),
        true => format!("target with old files: {kind}"),
    }
}

pub fn record_name(first: &str) -> String {
    format!("record: {first}")
}

/// Which of the two cannot be made, and whether the other was there and could have been lost.
pub fn not_made_name(second: bool, there: bool) -> &'static str {
    match (second, there) {
        (false, false) => "record: trace not made, no memory before",
        (false, true) => "record: trace not made, a memory before",
        (true, false) => "record: memory not made, no trace before",
        (true, true) => "record: memory not made, a trace before",
    }
}

pub fn replay_name(first: &str) -> String {
    format!("replay: {first}")
}

pub fn memory_name(kind: &str) -> String {
    format!("memory: {kind}")
}

pub fn ungranted_name(kind: Ungranted) -> String {
    format!("replay answer: {kind}")
}

/// A frame delivered whose packet status word the memory has at the end, where its check is told.
pub fn left_name(taken: Taken) -> String {
    format!("replay leaves the status word: {taken}")
}

pub fn feature_name(feature: &str) -> String {
    format!("trace: {feature}")
}

/// Counts what a replay writes: what became of it, and each answer to an event.
pub fn count(tally: &mut Tally, output: &str) {
    for line in output.lines() {
        let words: Vec<&str> = line.split(' ').collect();
        match words[..] {
            ["refused", number] => tally.met(replay_name(&format!("refused {number}"))),
            ["refused", number, block] => {
                tally.met(replay_name(&format!("refused {number}")));
                tally.met(digits_name(block.len()));
            }
            ["window", ..] => tally.met(replay_name("played")),
            ["usage:", ..] => tally.met(replay_name("usage")),
            ["error", ..] => tally.met(replay_name("error")),
            [event @ ("write" | "grant" | "frame" | "send"), number, ..] => {
                tally.met(format!("replay answer: {event} {number}"));
            }
            _ => {}
        }
    }
}

fn digits_name(digits: usize) -> String {
    replay_name(&format!("bad block with a number of {digits} digits"))
}

/// What the events of a replay can answer: the output of a program is never too short.
const ANSWERS: [(&str, &[u32]); 4] = [
    ("write", &[0, 2, 15]),
    ("grant", &[0, 11, 13, 14]),
    ("frame", &[0, 3, 4, 5, 6, 7, 8, 11]),
    ("send", &[0, 3, 7, 8, 11, 12]),
];

pub fn expect(tally: &mut Tally) {
    for kind in [RECORDED, REPLAYED] {
        tally.expect(kind);
    }
    for second in [false, true] {
        for there in [false, true] {
            tally.expect(not_made_name(second, there));
        }
    }
    for first in ["usage", "error", "refused"] {
        tally.expect(record_name(first));
    }
    for first in ["usage", "error", "played"] {
        tally.expect(replay_name(first));
    }
    for number in 17..=23 {
        tally.expect(replay_name(&format!("refused {number}")));
    }
    for digits in [1, 2, 4] {
        tally.expect(digits_name(digits));
    }
    for (event, numbers) in ANSWERS {
        for number in numbers {
            tally.expect(format!("replay answer: {event} {number}"));
        }
    }
    for kind in Ungranted::all() {
        tally.expect(ungranted_name(kind));
    }
    for taken in Taken::ALL {
        tally.expect(left_name(taken));
    }
    for kind in KINDS {
        tally.expect(script_name(kind));
    }
    for kind in limits::kinds() {
        tally.expect(limit_name(&kind));
    }
    for kind in large::kinds() {
        tally.expect(long_name(kind));
    }
    for kind in lengths::kinds() {
        tally.expect(length_name(kind));
    }
    for target in targets::all() {
        tally.expect(target_name(target.kind, false));
        if target.can_be_old(&Contents::new("/home")) {
            tally.expect(target_name(target.kind, true));
        }
    }
    for kind in MEMORIES {
        tally.expect(memory_name(kind));
    }
    for feature in FEATURES {
        tally.expect(feature_name(feature));
    }
}

/// What must be met besides where a folder can be closed.
pub fn expect_closed(tally: &mut Tally) {
    for target in targets::closed() {
        tally.expect(target_name(target.kind, false));
    }
}

/// What is made by hand alone, by the front of its name.
const BY_HAND: [&str; 11] = [
    "record: usage",
    "record: refused",
    "replay: usage",
    "replay: refused 23",
    "replay: bad block with a number of 4 digits",
    "target",
    "script at a limit",
    "files of limited length",
    "long",
    "trace",
    "left out",
];

/// How often a kind must be met in a whole comparison.
pub fn least(kind: &str) -> usize {
    if [RECORDED, REPLAYED, "replay: played"].contains(&kind) {
        OFTEN
    } else if BY_HAND.iter().any(|front| kind.starts_with(front)) {
        SELDOM
    } else {
        LEAST
    }
}
