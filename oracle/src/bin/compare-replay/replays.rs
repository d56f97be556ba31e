//! `replay`: traces of every kind with memories of every length.

use crate::compare::{Comparison, Start};
use crate::expected;
use oracle::delivered::Delivered;
use oracle::files::{Contents, Entry};
use oracle::hex;
use oracle::programs::replay::MEMORY_MOST;
use oracle::random::Random;
use oracle::tapes::{self, Tape, MEMORIES};
use oracle::trace::{self, Event, Header};
use oracle::ungranted::Ungranted;

const TRACE: &str = "day.trace";
const MEMORY: &str = "day.memory";

/// The trace of a seed with a memory of its own.
pub fn random(comparison: &mut Comparison, seed: u64) -> Result<(), String> {
    let random = &mut Random::new(!seed);
    let tape = tapes::random(seed);
    let kind = match random.below(2) {
        0 => MEMORIES[0],
        _ => random.pick(&MEMORIES),
    };
    let memory = tapes::memory(&tape, kind, random);
    let length = memory.len();
    comparison.tally.met(expected::memory_name(kind));
    one(comparison, &tape.bytes, &memory).map_err(|difference| {
        let shown = hex::write(&tape.bytes[..tape.bytes.len().min(8_192)]);
        format!(
            "{difference}\nmemory of {length} bytes ({kind}), trace of {} ({}): {shown}",
            tape.bytes.len(),
            tape.kind
        )
    })
}

/// Replays one trace with one memory.
pub fn one(comparison: &mut Comparison, trace: &[u8], memory: &[u8]) -> Result<(), String> {
    for feature in tapes::features(trace) {
        comparison.tally.met(expected::feature_name(feature));
    }
    for kind in ungranted(trace, memory) {
        comparison.tally.met(expected::ungranted_name(kind));
    }
    for delivered in delivered(trace, memory) {
        if delivered.left {
            comparison.tally.met(expected::left_name(delivered.taken));
        }
    }
    let before = contents(comparison, &[(TRACE, trace), (MEMORY, memory)]);
    given(comparison, &[TRACE, MEMORY], &before)
}

/// Each 8 of a replay by its kind; none where the trace is refused or another memory is lent.
fn ungranted(trace: &[u8], memory: &[u8]) -> Vec<Ungranted> {
    let Ok(content) = trace::content(trace) else {
        return Vec::new();
    };
    let Header { base, length } = content.header;
    // The program lends each send as much as any needs.
    let (memory, output) = (memory.to_vec(), vec![0; 1_518]);
    Ungranted::in_events(base, length.into(), &content.events, memory, output)
}

/// Each frame that a replay delivers; none where the trace is refused or another memory is lent.
fn delivered(trace: &[u8], memory: &[u8]) -> Vec<Delivered> {
    let Ok(content) = trace::content(trace) else {
        return Vec::new();
    };
    let Header { base, length } = content.header;
    let (memory, output) = (memory.to_vec(), vec![0; 1_518]);
    Delivered::in_events(base, length.into(), &content.events, memory, output)
}

/// Replays a trace with a memory that is not there: that is told, whatever the trace is.
pub fn without_memory(comparison: &mut Comparison, trace: &[u8]) -> Result<(), String> {
    let before = contents(comparison, &[(TRACE, trace)]);
    given(comparison, &[TRACE, MEMORY], &before)
}

pub fn contents(comparison: &Comparison, files: &[(&str, &[u8])]) -> Contents {
    let mut contents = comparison.folder.empty();
    for (name, bytes) in files {
        contents.put(*name, Entry::File(bytes.to_vec()));
    }
    contents
}

/// Runs `replay` with these words and files.
pub fn given(comparison: &mut Comparison, words: &[&str], before: &Contents) -> Result<(), String> {
    let start = Start {
        arguments: words.iter().map(|word| word.to_string()).collect(),
        input: b"",
        before: before.clone(),
    };
    let output = comparison.replay(&start)?;
    expected::count(&mut comparison.tally, &output);
    Ok(())
}

/// The smallest and the largest windows, at both ends of the addresses, with memories of every
/// length that matters.
pub fn windows(comparison: &mut Comparison) -> Result<(), String> {
    let events = [
        Event::Write {
            offset: 0x30,
            value: 5,
        },
        Event::Send,
        Event::Grant { address: 0 },
        Event::Frame { bytes: vec![] },
    ];
    for length in [64, 65_536] {
        for base in [0, 0_u32.wrapping_sub(length)] {
            let window = length as usize;
            let tape = Tape::new("by hand", Header { base, length }, vec![], &events);
            for memory in [
                0,
                1,
                window - 1,
                window,
                window + 1,
                MEMORY_MOST,
                MEMORY_MOST + 1,
            ] {
                one(comparison, &tape.bytes, &vec![0x5A; memory])
                    .map_err(|text| format!("{base:x} {length}, memory of {memory}\n{text}"))?;
            }
        }
    }
    Ok(())
}
