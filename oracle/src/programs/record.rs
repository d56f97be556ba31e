//! `record TRACE MEMORY < SCRIPT`.

use super::{Ended, ROOM};
use crate::files::{Contents, Entry};
use crate::numbers::WRITING_ROOM;
use crate::recording;
use crate::trace::block;

pub const USAGE: &str = "usage: record TRACE MEMORY < SCRIPT\n";

/// What a script is answered with: one line, and what is in the two files if they are made.
pub struct Recorded {
    pub line: String,
    pub files: Option<Files>,
}

pub struct Files {
    pub trace: Vec<u8>,
    pub memory: Vec<u8>,
}

/// What the program does with its arguments and a script, in the order of its tests.
pub fn run(arguments: &[String], script: &[u8], before: &Contents) -> Ended {
    let ended = |output: String| Ended::unchanged(output, before);
    let [trace, memory] = arguments else {
        return ended(USAGE.to_string());
    };
    let Recorded { line, files } = record(script);
    let Some(files) = files else {
        return ended(line);
    };
    let names = [trace, memory].map(String::as_str);
    match make(before, names, &files) {
        Ok(after) => Ended {
            output: line,
            after,
        },
        // "`error NAME`, the first that cannot be made."
        Err(wrong) => ended(format!("error {}\n", names[wrong])),
    }
}

/// What becomes of a script if both files can be made.
pub fn record(script: &[u8]) -> Recorded {
    let recording = match recording::of(script) {
        Ok(recording) => recording,
        Err(line) => return without_files(format!("error {line}\n")),
    };
    let trace = recording.trace();
    if trace.len() > ROOM {
        return without_files(format!("refused {WRITING_ROOM}\n"));
    }
    let (events, blocks) = (recording.events.len(), trace.len() / block::SIZE);
    Recorded {
        line: format!("recorded {events} {blocks}\n"),
        files: Some(Files {
            trace,
            memory: recording.image,
        }),
    }
}

fn without_files(line: String) -> Recorded {
    Recorded { line, files: None }
}

/// The folder with both files made, or which of the names is the first that cannot be.
pub fn make(before: &Contents, names: [&str; 2], files: &Files) -> Result<Contents, usize> {
    let bytes = [&files.trace[..], &files.memory];
    let place = |number: usize| {
        let fits = before
            .longest
            .is_none_or(|most| bytes[number].len() <= most);
        let place = before.room_for(names[number]);
        place.filter(|_| fits).ok_or(number)
    };
    let places = [place(0)?, place(1)?];
    // "Two names of one file, however they are spelt, make no file."
    if places[0] == places[1] {
        return Err(1);
    }
    let mut after = before.clone();
    for (place, bytes) in places.into_iter().zip(bytes) {
        after.put(place, Entry::File(bytes.to_vec()));
    }
    Ok(after)
}
