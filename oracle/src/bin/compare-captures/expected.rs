//! What a whole comparison must have met, and how often.

use crate::{large, lengths, orders, targets};
use oracle::tally::Tally;
use oracle::tapes::MEMORIES;

/// How often most kinds must be met in a whole comparison, and the few that are made by hand alone.
const LEAST: usize = 10;
const SELDOM: usize = 1;
/// How often a day must be exported and a capture imported.
const OFTEN: usize = 100;

pub const IMPORTED_AGAIN: &str = "exported, and imported again";
/// For a user who may write everywhere no folder is closed.
pub const CLOSED_LEFT_OUT: &str = "left out: targets in a closed folder";

/// A target, by whether a file was there before.
pub fn target_name(kind: &str, old: bool) -> String {
    match old {
        false => format!("target: {kind}"),
        true => format!("target with an old file: {kind}"),
    }
}

pub fn memory_name(kind: &str) -> String {
    format!("memory: {kind}")
}

pub fn frame_name(kind: &str) -> String {
    format!("day with a frame {kind}")
}

pub fn record_name(kind: &str) -> String {
    format!("good capture with a record {kind}")
}

pub fn words_name(kind: &str) -> String {
    format!("words: {kind}")
}

pub fn length_name(kind: &str) -> String {
    format!("files of limited length: {kind}")
}

pub fn long_name(what: &str, kind: &str) -> String {
    format!("long {what}: {kind}")
}

pub fn order_name(program: &str, first: &str, later: &str) -> String {
    format!("{program}: the {first} is told, where the {later} is wrong too")
}

fn told_name(program: &str, told: &str) -> String {
    format!("{program} says {told}")
}

/// Counts what a program writes at first.
pub fn count(tally: &mut Tally, program: &str, output: &str) {
    let line = output.lines().next().unwrap_or_default();
    let words: Vec<&str> = line.split(' ').collect();
    let told = match words[..] {
        ["refused", number] | ["refused", number, _] => format!("refused {number}"),
        [first, ..] => first.to_string(),
        [] => String::new(),
    };
    tally.met(told_name(program, &told));
}

/// What each program can say.
const TOLD: [(&str, &[&str]); 2] = [
    (
        "export",
        &[
            "exported",
            "refused 17",
            "refused 18",
            "refused 19",
            "refused 20",
            "refused 21",
            "refused 22",
            "refused 23",
            "refused 30",
            "error",
            "usage:",
        ],
    ),
    (
        "import",
        &[
            "imported",
            "refused 26",
            "refused 31",
            "refused 32",
            "refused 33",
            "refused 34",
            "refused 35",
            "refused 36",
            "refused 37",
            "error",
            "usage:",
        ],
    ),
];

const FRAMES: [&str; 8] = [
    "delivered",
    "sent",
    "delivered behind a sent one",
    "sent behind a delivered one",
    "lost",
    "not taken",
    "not sent",
    "none",
];

const RECORDS: [&str; 7] = [
    "none",
    "of no bytes",
    "under 60 bytes",
    "of 60 to 1,514 bytes",
    "over 1,514 bytes",
    "over 65,535 bytes",
    "microseconds over 999,999",
];

const WORDS: [&str; 6] = [
    "no base",
    "no length",
    "neither",
    "window not allowed",
    "window at a limit",
    "any window",
];

pub fn expect(tally: &mut Tally) {
    tally.expect(IMPORTED_AGAIN);
    for (program, all) in TOLD {
        for told in all {
            tally.expect(told_name(program, told));
        }
    }
    for (program, names) in [("import", &orders::IMPORT[..]), ("export", &orders::EXPORT)] {
        for (place, first) in names.iter().enumerate() {
            for later in &names[place + 1..] {
                tally.expect(order_name(program, first, later));
            }
        }
    }
    for target in targets::all().into_iter().chain(targets::of_memory()) {
        tally.expect(target_name(target.kind, false));
        if target.can_be_old(&targets::inputs()) {
            tally.expect(target_name(target.kind, true));
        }
    }
    for kind in MEMORIES {
        tally.expect(memory_name(kind));
    }
    for kind in FRAMES {
        tally.expect(frame_name(kind));
    }
    for kind in RECORDS {
        tally.expect(record_name(kind));
    }
    for kind in WORDS {
        tally.expect(words_name(kind));
    }
    for kind in lengths::kinds() {
        tally.expect(length_name(kind));
    }
    for kind in large::kinds() {
        tally.expect(kind);
    }
}

/// What must be met besides where a folder can be closed.
pub fn expect_closed(tally: &mut Tally) {
    for target in targets::closed() {
        tally.expect(target_name(target.kind, false));
    }
}

/// What is met less often, by the front of its name: what is made by hand alone, and what a random day
/// has seldom.
const BY_HAND: [&str; 13] = [
    "target",
    "long ",
    "files of limited length",
    "left out",
    "export: ",
    "import: ",
    "export says refused 23",
    "export says refused 30",
    "export says usage",
    "import says refused 37",
    "import says usage",
    "memory: ",
    "good capture with a record over 65,535 bytes",
];

/// How often a kind must be met in a whole comparison.
pub fn least(kind: &str) -> usize {
    if [
        IMPORTED_AGAIN,
        "export says exported",
        "import says imported",
    ]
    .contains(&kind)
    {
        OFTEN
    } else if BY_HAND.iter().any(|front| kind.starts_with(front)) {
        SELDOM
    } else {
        LEAST
    }
}
