//! `export_capture TRACE MEMORY PCAP`.

use super::{made, replay, Ended, CAPTURE_ROOM};
use crate::capture::{self, Time, Timed};
use crate::files::Contents;
use crate::numbers::{DONE, EXPORT_ROOM};
use crate::trace::{Content, Event};

pub const USAGE: &str = "usage: export_capture TRACE MEMORY PCAP\n";

/// "The seconds are its millions."
const SECOND: usize = 1_000_000;

/// What the program does with its arguments, in the order of its tests.
pub fn run(arguments: &[String], before: &Contents) -> Ended {
    let ended = |output: String| Ended::unchanged(output, before);
    let [trace, memory, target] = arguments else {
        return ended(USAGE.to_string());
    };
    // "`error NAME`, the first that cannot be opened or read."
    let files = (before.read(trace), before.read(memory));
    let exported = match files {
        (None, _) => return ended(format!("error {trace}\n")),
        (_, None) => return ended(format!("error {memory}\n")),
        (Some(trace), Some(memory)) => export(trace, memory),
    };
    let Exported { file, frames } = match exported {
        Ok(exported) => exported,
        Err(refused) => return ended(refused),
    };
    match made(before, target, file) {
        Some(after) => Ended {
            output: format!("exported {frames}\n"),
            after,
        },
        None => ended(format!("error {target}\n")),
    }
}

/// The capture of a day, and how many frames are in it.
pub struct Exported {
    pub file: Vec<u8>,
    pub frames: usize,
}

/// Exports a day whose files can be read, or gives what the program says to it.
pub fn export(trace: &[u8], memory: &[u8]) -> Result<Exported, String> {
    let content = replay::content(trace)?;
    let frames = frames(&content, memory);
    let file = capture::file(&frames);
    if file.len() > CAPTURE_ROOM {
        return Err(format!("refused {EXPORT_ROOM}\n"));
    }
    let frames = frames.len();
    Ok(Exported { file, frames })
}

/// "Those of each frame event and each single send that answered 0", in the order of the events; "the
/// time of a frame is its event's number from 0, in microseconds".
pub fn frames(content: &Content, memory: &[u8]) -> Vec<Timed> {
    let mut frames = Vec::new();
    let mut number = 0;
    replay::play(content, memory, |event, answer, output| {
        let frame = match event {
            _ if answer.number != DONE => None,
            Event::Frame { bytes } => Some(bytes.clone()),
            Event::Send => Some(output[..answer.sent].to_vec()),
            Event::Write { .. } | Event::Grant { .. } => None,
        };
        let time = Time {
            seconds: (number / SECOND) as u32,
            microseconds: (number % SECOND) as u32,
        };
        frames.extend(frame.map(|frame| Timed { time, frame }));
        number += 1;
    });
    frames
}
