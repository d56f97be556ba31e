//! `export_capture`: days of every kind with memories of every length, and what it makes imported.

use crate::compare::{Comparison, ALSO, IN, OUT};
use crate::{expected, imports, targets};
use oracle::files::{Contents, Entry};
use oracle::hex::shown;
use oracle::numbers::{DONE, NOT_GRANTED};
use oracle::programs::replay;
use oracle::programs::told::{self, Told};
use oracle::random::Random;
use oracle::tapes::{self, MEMORIES};
use oracle::trace::{self, Event};

/// The trace of a seed, good or not, with a memory of its own, into a target of its own.
pub fn random(comparison: &mut Comparison, seed: u64) -> Result<(), String> {
    let random = &mut Random::new(!seed);
    let own = &mut Random::new(seed ^ 0xE9);
    let tape = match seed % 4 {
        0 => tapes::good(own),
        1 => tapes::traffic(own),
        _ => tapes::random(seed / 2),
    };
    let kind = match random.below(4) {
        0 => random.pick(&MEMORIES),
        _ => MEMORIES[0],
    };
    let memory = tapes::memory(&tape, kind, random);
    comparison.tally.met(expected::memory_name(kind));
    day(comparison, &tape.bytes, &memory, random).map_err(|difference| {
        format!(
            "{difference}\nmemory of {} bytes ({kind}), trace of {} ({}): {}",
            memory.len(),
            tape.bytes.len(),
            tape.kind,
            shown(&tape.bytes)
        )
    })
}

/// Exports one day; what is made is imported again.
fn day(
    comparison: &mut Comparison,
    trace: &[u8],
    memory: &[u8],
    random: &mut Random,
) -> Result<(), String> {
    let target = targets::random(random);
    let inputs = comparison.with(&[(IN, trace), (ALSO, memory)]);
    let old = random.once_in(2);
    let mut given = String::new();
    let ended = targets::into(
        comparison,
        target,
        inputs,
        old,
        random,
        |comparison, name, before| {
            given = name.to_string();
            comparison.export(&[IN, ALSO, name], before)
        },
    )?;
    match ended {
        Some(ended) if ended.output.starts_with("exported") => {
            let told = told::by_replay(trace, memory);
            count(comparison, trace, memory);
            // The oracle by two ways; the program has made the same file.
            let file = ended.after.read(&given).expect("the capture was made");
            if told::by_capture(file).as_ref() != Ok(&told) {
                return Err("the capture has other frames than the oracle's replay".to_string());
            }
            again(comparison, ended.after, &given, &told, random)
        }
        _ => Ok(()),
    }
}

/// Imports the capture that was made: the trace has its frames as events, and can be replayed.
fn again(
    comparison: &mut Comparison,
    before: Contents,
    name: &str,
    told: &[Told],
    random: &mut Random,
) -> Result<(), String> {
    let (base, length) = imports::window(random);
    let (base, length) = (format!("{base:x}"), length.to_string());
    let trace = "a new trace";
    let ended = comparison.import(&[name, trace, &base, &length], &before)?;
    let bytes = ended.after.read(trace).ok_or("no trace was made")?;
    let content = trace::content(bytes).map_err(|fault| format!("{fault:?}"))?;
    let frames = told.iter().map(|(_, bytes)| Event::Frame {
        bytes: bytes.clone(),
    });
    if !trace::events(&content.events).eq(frames) {
        return Err("the imported trace has other frames than were exported".to_string());
    }
    // Nothing runs on a new bench: each frame is answered 3, or 11 where other memory is lent.
    let played = replay::output(bytes, &vec![0; content.header.length as usize]);
    let answers = played.lines().filter(|line| *line == "frame 3").count();
    if answers != told.len() {
        return Err(format!("{answers} frames of the imported trace answer 3"));
    }
    comparison.tally.met(expected::IMPORTED_AGAIN);
    Ok(())
}

/// Counts what a day has that could be exported wrongly.
fn count(comparison: &mut Comparison, trace: &[u8], memory: &[u8]) {
    let content = trace::content(trace).expect("a day that is exported has no bad block");
    let mut kinds = Vec::new();
    let mut before = "";
    replay::play(&content, memory, |event, answer, _| {
        let (kind, behind) = match (event, answer.number) {
            (Event::Frame { .. }, DONE) => ("delivered", "delivered behind a sent one"),
            (Event::Send, DONE) => ("sent", "sent behind a delivered one"),
            (Event::Frame { .. }, NOT_GRANTED) => return kinds.push("lost"),
            (Event::Frame { .. }, _) => return kinds.push("not taken"),
            (Event::Send, _) => return kinds.push("not sent"),
            _ => return,
        };
        kinds.push(kind);
        if !before.is_empty() && before != kind {
            kinds.push(behind);
        }
        before = kind;
    });
    if before.is_empty() {
        kinds.push("none");
    }
    for kind in kinds {
        comparison.tally.met(expected::frame_name(kind));
    }
}

/// Exports a day into a plain target, over an old file.
pub fn over_old(
    comparison: &mut Comparison,
    trace: &[u8],
    memory: &[u8],
) -> Result<String, String> {
    let mut before = comparison.with(&[(IN, trace), (ALSO, memory)]);
    before.put(OUT, Entry::File(vec![7; 100]));
    let ended = comparison.export(&[IN, ALSO, OUT], &before)?;
    Ok(ended.output)
}
