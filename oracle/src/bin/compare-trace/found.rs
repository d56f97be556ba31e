//! The numbers that a call finds, in the order of the C interface, and their names.

use oracle::device::Bench;
use oracle::trace::{Reading, Replay, Writing};

pub const READING: [&str; 6] = ["number", "block", "base", "window", "bytes", "events"];

pub fn reading(reading: &Reading) -> [u64; READING.len()] {
    [
        reading.number.into(),
        reading.block,
        reading.base.into(),
        reading.window.into(),
        reading.bytes,
        reading.events,
    ]
}

pub const WRITING: [&str; 2] = ["number", "blocks"];

pub fn writing(writing: &Writing) -> [u64; WRITING.len()] {
    [writing.number.into(), writing.blocks]
}

pub const REPLAY: [&str; 28] = [
    "number",
    "block",
    "bytes",
    "events",
    "base",
    "window length",
    "ISR",
    "IER",
    "MCR",
    "MAH",
    "MAL",
    "MCHA",
    "MCLA",
    "receive start register",
    "receive next-descriptor register",
    "receiving runs",
    "receive place",
    "receive polling",
    "send start register",
    "send next-descriptor register",
    "sending runs",
    "send place",
    "send polling",
    "TXTOR",
    "frames delivered",
    "frames lost",
    "frames sent",
    "count of ticks",
];

/// Offsets in the order of the list above: those of both, and start and next of each engine.
const BOTH: [u32; 7] = [0x08, 0x04, 0x400, 0x404, 0x408, 0x40C, 0x410];
const RECEIVE: [u32; 2] = [0x10, 0x1C];
const SEND: [u32; 2] = [0x30, 0x3C];
const TIME_OUT: [u32; 1] = [0x48];

pub fn replay(replay: &Replay) -> Vec<u64> {
    let bench = &replay.bench;
    let mut found = vec![
        replay.number.into(),
        replay.block,
        replay.bytes,
        replay.events,
        bench.window.base,
        bench.window.length,
    ];
    found.extend(registers(bench, &BOTH));
    for (offsets, engine) in [(RECEIVE, bench.receiver), (SEND, bench.sender)] {
        found.extend(registers(bench, &offsets));
        found.extend([
            u64::from(engine.running),
            engine.place.into(),
            engine.polling.into(),
        ]);
    }
    found.extend(registers(bench, &TIME_OUT));
    let counters = bench.counters;
    let all = [
        counters.delivered,
        counters.lost,
        counters.sent,
        bench.ticks,
    ];
    found.extend(all.map(u64::from));
    found
}

fn registers<'bench>(
    bench: &'bench Bench,
    offsets: &'bench [u32],
) -> impl Iterator<Item = u64> + 'bench {
    offsets
        .iter()
        .map(|offset| u64::from(bench.read(*offset).1))
}
