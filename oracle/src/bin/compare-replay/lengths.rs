//! `record` where a file cannot be longer than some length, as on a disk with little room.

use crate::compare::Comparison;
use crate::expected;
use crate::records;
use crate::scripts::Made;
use crate::targets::{self, OLD};
use oracle::random::Random;

/// The longest file that can be made.
const LONGEST: usize = 1_024;

/// Days of so many sends in windows so long: 1,002 sends are two blocks.
const DAYS: [(&str, usize, usize); 5] = [
    ("both short enough", 10, 64),
    ("both as long as can be", 1_002, LONGEST),
    ("trace too long", 1_003, 64),
    ("memory too long", 10, LONGEST + 4),
    ("both too long", 1_003, LONGEST + 4),
];

pub fn kinds() -> impl Iterator<Item = &'static str> {
    DAYS.into_iter().map(|(kind, ..)| kind)
}

pub fn compare(comparison: &mut Comparison) -> Result<(), String> {
    let random = &mut Random::new(0x0F01);
    for (kind, sends, window) in DAYS {
        let sends = "send 1518\n".repeat(sends);
        let script = Made {
            kind,
            text: format!("new 0 {window}\n{sends}").into(),
        };
        for old in OLD {
            let mut empty = comparison.folder.empty();
            empty.longest = Some(LONGEST);
            comparison.tally.met(expected::length_name(kind));
            records::into(comparison, targets::made()[0], empty, old, &script, random)?;
        }
    }
    Ok(())
}
