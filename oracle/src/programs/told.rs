//! The frames of a day in two ways: by the lines that a replay writes of it, and by its capture.

use super::replay;
use crate::capture;
use crate::trace::{self, Event};
use crate::{check, hex};

/// A frame with its check sequence, and the number of its event.
pub type Told = (usize, Vec<u8>);

/// Those that were delivered or sent, by what `replay::output` writes of a day without a bad block.
pub fn by_replay(trace: &[u8], memory: &[u8]) -> Vec<Told> {
    let content = trace::content(trace).expect("the day has no bad block");
    let output = replay::output(trace, memory);
    let frame = |(number, (line, event)): (usize, (&str, Event))| {
        let words: Vec<&str> = line.split(' ').collect();
        match (&words[..], event) {
            (["frame", "0"], Event::Frame { bytes }) => Some((number, bytes)),
            (["send", "0", digits], Event::Send) => {
                let bytes = hex::parse(digits.as_bytes());
                Some((number, bytes.expect("a send tells its bytes")))
            }
            _ => None,
        }
    };
    // The first line is of the window.
    let lines = output.lines().skip(1);
    lines
        .zip(trace::events(&content.events))
        .enumerate()
        .filter_map(frame)
        .collect()
}

/// Those of a capture, by their times, or the number of its refusal.
pub fn by_capture(file: &[u8]) -> Result<Vec<Told>, u32> {
    let records = capture::records(file)?;
    let frame = |record: &capture::Record| {
        let [seconds, microseconds] = [record.time.seconds, record.time.microseconds];
        let number = 1_000_000 * seconds as usize + microseconds as usize;
        (number, check::closed(record.bytes))
    };
    Ok(records.iter().map(frame).collect())
}
