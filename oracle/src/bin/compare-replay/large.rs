//! The longest trace that each program has room for, and longer ones.

use crate::compare::Comparison;
use crate::expected;
use crate::scripts::Made;
use crate::{records, replays, targets};
use oracle::programs::{BLOCKS_MOST, ROOM};
use oracle::random::Random;
use oracle::trace::{block, Event, Header};

/// The most bytes of a frame that a line can name.
const FRAME: usize = 2_045;
const FRAME_EVENT: usize = 5 + FRAME;

/// The most bytes of events.
const MOST: usize = BLOCKS_MOST * block::DATA_MOST - Header::SIZE;

pub fn compare(comparison: &mut Comparison) -> Result<(), String> {
    record(comparison).map_err(|difference| format!("a long script\n{difference}"))?;
    replay(comparison).map_err(|difference| format!("a long trace\n{difference}"))
}

/// Long scripts: how many bytes of events they have, their end, and where they go. Before a refusal
/// comes a wrong line, and behind it a file that cannot be made.
const SCRIPTS: [(&str, usize, &str, &str); 11] = [
    ("as long as there is room for", MOST, "", "plain"),
    ("a frame up to the end", MOST - 7, "frame 0011\n", "plain"),
    (
        "a frame over the end",
        MOST - 6,
        "frame 0011\nsend 1518\n",
        "plain",
    ),
    ("longer by a send", MOST + 1, "", "plain"),
    ("far longer", 3 * MOST, "", "plain"),
    ("longer, comments", MOST + 1, "#\n\n#", "plain"),
    ("longer, a wrong line", MOST + 1, "#\nstate\n", "plain"),
    ("longer, a poke", MOST + 1, "poke 0 00\n", "plain"),
    ("longer, a second new", MOST + 1, "new 0 64", "plain"),
    ("longer, no folder", MOST + 1, "", NO_FOLDER),
    ("longer, wrong, no folder", MOST + 1, "end", NO_FOLDER),
];
const NO_FOLDER: &str = "trace in no folder";

/// Long traces: what is in them.
const TRACES: [&str; 9] = [
    "sends, as many as there is room for",
    "one frame, as long as there is room for",
    "a block more than there is room for",
    "a byte more than there is room for",
    "a byte less than there is room for",
    "bad in its last block",
    "bad in its first block, and too long",
    "zeros, and too long",
    "far too long",
];

pub fn kinds() -> impl Iterator<Item = &'static str> {
    SCRIPTS.iter().map(|(kind, ..)| *kind).chain(TRACES)
}

fn record(comparison: &mut Comparison) -> Result<(), String> {
    let random = &mut Random::new(0x1A46);
    for (kind, bytes, end, target) in SCRIPTS {
        let mut text = script(bytes);
        text.extend(end.as_bytes());
        comparison.tally.met(expected::long_name(kind));
        let target = targets::all().into_iter().find(|row| row.kind == target);
        let target = target.expect("the tables have such a target");
        let script = Made { kind: "long", text };
        let empty = comparison.folder.empty();
        records::into(comparison, target, empty, [false, true], &script, random)?;
    }
    Ok(())
}

/// A script with this many bytes of events: frames as long as they go, and then sends.
fn script(bytes: usize) -> Vec<u8> {
    let frame = format!("frame {}\n", "5a".repeat(FRAME));
    let mut text = b"new 0 64\nwrite 10 5\n".to_vec();
    let left = bytes - 9;
    for _ in 0..left / FRAME_EVENT {
        text.extend(frame.as_bytes());
    }
    for _ in 0..left % FRAME_EVENT {
        text.extend(b"send 1518\n");
    }
    text
}

fn replay(comparison: &mut Comparison) -> Result<(), String> {
    let sends = trace(&vec![Event::Send; MOST]);
    for kind in TRACES {
        let mut long = sends.clone();
        match kind {
            "one frame, as long as there is room for" => {
                let bytes = vec![0x5A; MOST - 5];
                long = trace(&[Event::Frame { bytes }]);
            }
            "a block more than there is room for" => long = trace(&vec![Event::Send; MOST + 1]),
            "a byte more than there is room for" => long.push(0),
            "a byte less than there is room for" => {
                long.pop();
            }
            "bad in its last block" => long[ROOM - block::SIZE] ^= 1,
            "bad in its first block, and too long" => {
                long = trace(&vec![Event::Send; MOST + 1]);
                long[0] = 1;
            }
            "zeros, and too long" => long = vec![0; ROOM + 1],
            "far too long" => long = sends.repeat(4),
            _ => {}
        }
        comparison.tally.met(expected::long_name(kind));
        replays::one(comparison, &long, &[7; 64])
            .map_err(|difference| format!("{kind}\n{difference}"))?;
        // That the memory is not there is told before.
        if long.len() != ROOM {
            replays::without_memory(comparison, &long)?;
        }
    }
    Ok(())
}

/// The trace of a small window and these events, whatever their number.
fn trace(events: &[Event]) -> Vec<u8> {
    let header = Header {
        base: 0x0400_0000,
        length: 64,
    };
    block::all(&[header.bytes(), Event::list(events)].concat())
}
