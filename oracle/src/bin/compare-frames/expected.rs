//! What a whole comparison must have met, and how often.

use oracle::frames::{Destination, Ending};
use oracle::tables::Table;
use oracle::taken::Taken;
use oracle::tally::Tally;
use oracle::telling;

/// How often the hash must have decided in each way.
const BY_HASH_LEAST: usize = 2_000;
/// How often each filter mode must be met.
const MODE_LEAST: usize = 1_000;
/// How often the address rule must answer each number to a random frame, a group by all-multicast and
/// by hash too.
const ANSWER_LEAST: usize = 2_000;
/// How often each case must be met in which two lines of the rule speak of a frame.
const CASE_LEAST: usize = 100;

/// What the C address rule answers: 0, or 1 to 4 by the reason.
const ANSWERS: [u32; 5] = [0, 1, 2, 3, 4];

pub fn answer_name(number: u32) -> String {
    format!("C address rule {number}")
}

pub fn taken_name(taken: Taken) -> String {
    format!("frame taken: {taken}")
}

pub fn case_name(case: &str) -> String {
    format!("case: {case}")
}

/// A group frame in the hash mode, neither receive-all nor broadcast having come first.
pub fn by_hash_name(accepted: bool) -> &'static str {
    match accepted {
        true => "group frame accepted by hash",
        false => "group frame refused by hash",
    }
}

pub fn mode_name(mode: u32) -> String {
    format!("filter mode {mode}")
}

pub fn receive_all_name(mode: u32, receive_all: bool) -> String {
    let all = if receive_all { "on" } else { "off" };
    format!("filter mode {mode}, receive-all {all}")
}

pub fn expect(tally: &mut Tally) {
    for destination in Destination::ALL {
        tally.expect(format!("destination {destination:?}"));
    }
    for ending in Ending::ALL {
        tally.expect(format!("check sequence {ending:?}"));
    }
    for table in Table::ALL {
        tally.expect(format!("hash table {table:?}"));
    }
    for mode in 0..8 {
        tally.expect(mode_name(mode));
        for receive_all in [false, true] {
            tally.expect(receive_all_name(mode, receive_all));
        }
    }
    for accepted in [false, true] {
        tally.expect(by_hash_name(accepted));
    }
    for answer in 0..2 {
        tally.expect(format!("C frame check {answer}"));
    }
    for answer in ANSWERS {
        tally.expect(answer_name(answer));
    }
    for taken in Taken::ALL {
        tally.expect(taken_name(taken));
    }
    for case in telling::CASES {
        tally.expect(case_name(case));
    }
    for number in [0, 4, 5, 6] {
        tally.expect(format!("program verdict {number}"));
    }
    tally.expect("program input in two pieces");
    tally.expect("high register with reserved bits set");
}

/// How often a kind must be met.
pub fn least(kind: &str) -> usize {
    if [false, true].map(by_hash_name).contains(&kind) {
        BY_HASH_LEAST
    } else if (0..8).any(|mode| mode_name(mode) == kind) {
        MODE_LEAST
    } else if ANSWERS.iter().any(|number| answer_name(*number) == kind)
        || Taken::ALL.iter().any(|taken| taken_name(*taken) == kind)
    {
        ANSWER_LEAST
    } else if telling::CASES.iter().any(|case| case_name(case) == kind) {
        CASE_LEAST
    } else {
        1
    }
}
