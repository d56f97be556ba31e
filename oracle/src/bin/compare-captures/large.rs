//! The longest captures that there is room for, and longer ones; days of more than a second.

use crate::compare::{Comparison, ALSO, IN, OUT};
use crate::{expected, exports, targets};
use oracle::capture::{header, record, Time};
use oracle::check;
use oracle::files::Entry;
use oracle::programs::{BLOCKS_MOST, CAPTURE_ROOM, ROOM};
use oracle::trace::{block, Event, Header};

/// Long days, and what is told to each.
const DAYS: [(&str, &str); 9] = [
    ("as long as there is room for", "exported 1371\n"),
    ("a byte too long", "refused 30\n"),
    ("far too long", "refused 30\n"),
    ("too long, no target", "refused 30\n"),
    (
        "of two seconds, its trace as long as there is room for",
        "exported 4\n",
    ),
    ("trace longer by a send", "refused 23\n"),
    ("trace a byte too long", "refused 23\n"),
    ("trace far too long", "refused 23\n"),
    ("trace too long, no target", "refused 23\n"),
];

/// Long captures, and what is told to each at first.
const CAPTURES: [(&str, &str); 11] = [
    ("one record, as long as there is room for", "imported 1\n"),
    (
        "records of no bytes, as many as there is room for",
        "imported 131070\n",
    ),
    ("as long as there is room for, cut", "refused 35\n"),
    ("zeros, as many as there is room for", "refused 32\n"),
    ("one record, a byte too long", "refused 37\n"),
    ("records of no bytes, a byte too long", "refused 37\n"),
    ("zeros, a byte too long", "refused 37\n"),
    ("far too long", "refused 37\n"),
    ("a byte too long, window not allowed", "refused 37\n"),
    ("a byte too long, no target", "refused 37\n"),
    (
        "as long as there is room for, window not allowed",
        "refused 26\n",
    ),
];

pub fn kinds() -> impl Iterator<Item = String> {
    let days = DAYS
        .iter()
        .map(|(kind, _)| expected::long_name("day", kind));
    let captures = CAPTURES
        .iter()
        .map(|(kind, _)| expected::long_name("capture", kind));
    days.chain(captures)
}

/// The most blocks of a trace that is made of a capture.
const BLOCKS: usize = 4_161;

pub fn compare(comparison: &mut Comparison) -> Result<(), String> {
    for (kind, told) in DAYS {
        day(comparison, kind, told).map_err(|text| format!("a long day: {kind}\n{text}"))?;
        comparison.tally.met(expected::long_name("day", kind));
    }
    for (kind, told) in CAPTURES {
        capture(comparison, kind, told)
            .map_err(|text| format!("a long capture: {kind}\n{text}"))?;
        comparison.tally.met(expected::long_name("capture", kind));
    }
    Ok(())
}

fn day(comparison: &mut Comparison, kind: &str, told: &str) -> Result<(), String> {
    // 24 bytes, 1,530 for each of the sends, and 12 more than the frame has.
    let trace = match kind {
        "as long as there is room for" => trace(&long_day(1_370, 1_016)),
        "far too long" => trace(&long_day(2_000, 64)),
        "of two seconds, its trace as long as there is room for" => trace(&seconds(0)),
        "trace longer by a send" => trace(&seconds(1)),
        "trace a byte too long" => vec![0; ROOM + 1],
        "trace far too long" => trace(&long_day(10, 64)).repeat(10_000),
        "trace too long, no target" => vec![0; ROOM + 1],
        _ => trace(&long_day(1_370, 1_017)),
    };
    let memory = memory();
    let output = match kind.ends_with("no target") {
        false => exports::over_old(comparison, &trace, &memory)?,
        true => {
            let before = comparison.with(&[(IN, &trace), (ALSO, &memory)]);
            comparison.export(&[IN, ALSO, "none/out"], &before)?.output
        }
    };
    told_so(&output, told)
}

/// That a case made by hand is the one that its name says.
fn told_so(output: &str, told: &str) -> Result<(), String> {
    match output.starts_with(told) {
        true => Ok(()),
        false => Err(format!("the oracle says {:?}", output.lines().next())),
    }
}

/// Where the send descriptor is, which leads to itself, and the receive ring.
const SEND: u32 = 0;
const RING: [u32; 4] = [0x40, 0x50, 0x60, 0x70];

/// A window of 65,536 bytes with both.
fn memory() -> Vec<u8> {
    let mut memory = vec![0x33; 65_536];
    let mut put = |at: u32, count: u32, start: u32, next: u32| {
        let words = [count | 1 << 14, start, next | 1, 0];
        for (place, word) in (at as usize..).step_by(4).zip(words) {
            memory[place..place + 4].copy_from_slice(&word.to_le_bytes());
        }
    };
    put(SEND, 1_514, 0x100, SEND);
    for (place, at) in RING.into_iter().enumerate() {
        let next = RING[(place + 1) % RING.len()];
        put(at, 1_518, 0x1000 + 0x800 * place as u32, next);
    }
    memory
}

/// Both engines started, receive-all, and the ring granted.
fn started() -> Vec<Event> {
    let write = |offset, value| Event::Write { offset, value };
    let mut events = vec![
        write(0x400, 1 << 31),
        write(0x1C, RING[0] | 1),
        write(0x10, 5),
    ];
    events.extend(RING.map(|address| Event::Grant { address }));
    events
}

/// So many sends of 1,518 bytes, and then a frame of this many that is delivered.
fn long_day(sends: usize, frame: usize) -> Vec<Event> {
    let write = |offset, value| Event::Write { offset, value };
    let mut events = started();
    events.extend([write(0x3C, SEND | 1), write(0x30, 5)]);
    for _ in 0..sends {
        events.extend([Event::Grant { address: SEND }, Event::Send]);
    }
    events.push(delivered(frame));
    events
}

/// Frames around the ends of the first and the second second; sends between and behind that find
/// nothing running, up to the end of the last block that there is room for, and some more.
fn seconds(more: usize) -> Vec<Event> {
    let mut events = started();
    for (number, length) in [
        (999_999, 64),
        (1_000_000, 65),
        (1_000_001, 66),
        (2_000_000, 67),
    ] {
        events.resize(number, Event::Send);
        events.push(delivered(length));
    }
    let most = BLOCKS_MOST * block::DATA_MOST - Header::SIZE;
    let sends = most - Event::list(&events).len() + more;
    events.extend(vec![Event::Send; sends]);
    events
}

fn delivered(length: usize) -> Event {
    Event::Frame {
        bytes: check::closed(&vec![length as u8; length - 4]),
    }
}

fn trace(events: &[Event]) -> Vec<u8> {
    let header = Header {
        base: 0,
        length: 65_536,
    };
    block::all(&[header.bytes(), Event::list(events)].concat())
}

fn capture(comparison: &mut Comparison, kind: &str, told: &str) -> Result<(), String> {
    let one = |length: usize| targets::pcap(length - header::SIZE - record::HEAD);
    let file = match kind {
        "records of no bytes, as many as there is room for" => many(8),
        "as long as there is room for, cut" => {
            let mut file = one(CAPTURE_ROOM + 1);
            file.pop();
            file
        }
        "zeros, as many as there is room for" => vec![0; CAPTURE_ROOM],
        "records of no bytes, a byte too long" => many(9),
        "zeros, a byte too long" => vec![0; CAPTURE_ROOM + 1],
        "far too long" => one(3 * CAPTURE_ROOM),
        "one record, as long as there is room for"
        | "as long as there is room for, window not allowed" => one(CAPTURE_ROOM),
        _ => one(CAPTURE_ROOM + 1),
    };
    let mut before = comparison.with(&[(IN, &file)]);
    before.put(OUT, Entry::File(vec![7; 100]));
    let length = if kind.ends_with("not allowed") {
        "60"
    } else {
        "64"
    };
    let target = if kind.ends_with("no target") {
        "none/out"
    } else {
        OUT
    };
    let ended = comparison.import(&[IN, target, "0", length], &before)?;
    told_so(&ended.output, told)?;
    if kind == "one record, as long as there is room for" {
        let trace = ended.after.read(OUT).expect("the trace was made");
        assert_eq!(trace.len(), BLOCKS * block::SIZE);
        // That is more than a replay has room for.
        let output = exports::over_old(comparison, trace, &[0; 64])?;
        told_so(&output, "refused 23\n")?;
    }
    Ok(())
}

/// As many records as there can be, the last of this many bytes and all others of none.
fn many(last: usize) -> Vec<u8> {
    let count = (CAPTURE_ROOM - header::SIZE) / record::HEAD;
    let mut file = header::made().to_vec();
    for number in 0..count {
        let time = Time {
            seconds: number as u32,
            microseconds: (999_990 + number) as u32,
        };
        let length = if number + 1 == count { last } else { 0 };
        file.extend(record::made(time, &vec![0x5A; length]));
    }
    file
}

#[cfg(test)]
mod tests {
    use super::*;
    use oracle::programs::export_capture;

    #[test]
    fn the_files_are_as_long_as_they_say() {
        assert_eq!(many(8).len(), CAPTURE_ROOM);
        assert_eq!(trace(&seconds(0)).len(), ROOM);
        assert_eq!(trace(&seconds(1)).len(), ROOM + block::SIZE);
        let exported = export_capture::export(&trace(&long_day(1_370, 1_016)), &memory()).ok();
        let exported = exported.expect("it is exported");
        assert_eq!(
            (exported.file.len(), exported.frames),
            (CAPTURE_ROOM, 1_371)
        );
    }
}
