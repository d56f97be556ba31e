//! Counts the answers that a comparison meets, and names those it must.

use super::{bursts, counters, hashes, interrupts, polling, reasons};
use crate::tally::Tally;
use std::fmt;

/// How often each number and each call's answer must be met in a whole comparison.
const LEAST: usize = 100;

/// Calls whose answer is a number.
const NUMBERED: [&str; 12] = [
    "new", "read", "write", "grant", "frame", "burst", "send", "run", "show", "vread", "vwrite",
    "tick",
];

/// Counts the answer to a line under its call and, if it is a number, under that.
pub fn count(tally: &mut Tally, line: &[u8], answer: &str) {
    bursts::count(tally, line, answer);
    let mut words = answer.split(' ');
    let call = words.next().unwrap_or_default();
    let result = words.next().unwrap_or_default();
    tally.met("calls");
    if NUMBERED.contains(&call) {
        tally.met(number_name(result));
        tally.met(format!("{call} {result}"));
    } else if ["ring", "line", "fiq"].contains(&call) || ["outside", "none"].contains(&result) {
        tally.met(format!("{call} {result}"));
    } else {
        tally.met(call);
    }
}

/// The tally's name of a numbered result, ordered as the numbers are.
fn number_name(number: impl fmt::Display) -> String {
    format!("number {number:>2}")
}

/// Answers that a whole comparison must have met, by call.
const ANSWERS: [(&str, &[u32]); 12] = [
    ("new", &[0, 1]),
    ("read", &[0, 2]),
    ("write", &[0, 2, 15]),
    ("grant", &[0, 11, 13, 14]),
    ("frame", &[0, 3, 4, 5, 6, 7, 8, 11]),
    ("burst", &[0, 16]),
    ("send", &[0, 3, 7, 8, 9, 11, 12]),
    ("run", &[0, 3, 7, 8, 9, 10, 11, 12]),
    ("show", &[0, 11, 13]),
    ("vread", &[0, 2]),
    ("vwrite", &[0, 2]),
    ("tick", &[0, 11]),
];

/// Names every answer there is, so that one never met is seen.
pub fn expect(tally: &mut Tally) {
    bursts::expect(tally);
    counters::expect(tally);
    hashes::expect(tally);
    interrupts::expect(tally);
    polling::expect(tally);
    reasons::expect(tally);
    for number in 0..=16 {
        tally.expect(number_name(number));
    }
    for (call, numbers) in ANSWERS {
        for number in numbers {
            tally.expect(format!("{call} {number}"));
        }
    }
    for other in ["ring yes", "ring no", "line 0", "line 1", "error", "lend"] {
        tally.expect(other);
    }
    for other in [
        "poke",
        "poke outside",
        "peek",
        "peek outside",
        "check",
        "state",
        "counters",
        "inputs",
        "irq",
        "irq none",
        "fiq 0",
        "fiq 1",
    ] {
        tally.expect(other);
    }
}

/// How often a kind must be met in a whole comparison.
pub fn least(kind: &str) -> usize {
    let asked = hashes::least(kind)
        .or_else(|| interrupts::least(kind))
        .or_else(|| polling::least(kind))
        .or_else(|| reasons::least(kind))
        .or_else(|| counters::least(kind));
    match asked {
        Some(least) => least,
        None if bursts::is_answer(kind) => bursts::ANSWER_LEAST,
        None => LEAST,
    }
}

#[cfg(test)]
mod tests {
    use super::*;

    #[test]
    fn answers_are_counted_by_call_and_number() {
        let mut tally = Tally::default();
        for answer in [
            "frame 11",
            "grant 11",
            "peek outside",
            "peek 00",
            "ring yes",
        ] {
            count(&mut tally, b"", answer);
        }
        for kind in ["frame 11", "grant 11", "peek", "peek outside", "ring yes"] {
            assert_eq!(tally.count(kind), 1);
        }
        assert_eq!(tally.count("number 11"), 2);
    }
}
