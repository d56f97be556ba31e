//! `import_capture PCAP TRACE BASE LENGTH`.

use super::{made, Ended, CAPTURE_ROOM};
use crate::capture;
use crate::console::{decimal, hexadecimal};
use crate::files::Contents;
use crate::numbers::{IMPORT_ROOM, WRITING_WINDOW};
use crate::trace::{block, Event, Header};
use std::fmt::Write;

pub const USAGE: &str = "usage: import_capture PCAP TRACE BASE LENGTH\n";

/// What the program does with its arguments, in the order of its tests.
pub fn run(arguments: &[String], before: &Contents) -> Ended {
    let ended = |output: String| Ended::unchanged(output, before);
    let [pcap, target, base, length] = arguments else {
        return ended(USAGE.to_string());
    };
    // "`error WORD`, the first that is not of its form."
    let numbers = (
        hexadecimal(base.as_bytes()),
        decimal(length.as_bytes(), u32::MAX),
    );
    let (from, bytes) = match numbers {
        (None, _) => return ended(format!("error {base}\n")),
        (_, None) => return ended(format!("error {length}\n")),
        (Some(from), Some(bytes)) => (from, bytes),
    };
    let Some(file) = before.read(pcap) else {
        return ended(format!("error {pcap}\n"));
    };
    let Imported { trace, output } = match import(file, from, bytes) {
        Ok(imported) => imported,
        Err(number) => return ended(format!("refused {number}\n")),
    };
    match made(before, target, trace) {
        Some(after) => Ended { output, after },
        None => ended(format!("error {target}\n")),
    }
}

/// The trace of a capture, and what the program writes if that is made.
pub struct Imported {
    pub trace: Vec<u8>,
    pub output: String,
}

/// Imports a capture that can be read, or gives the number of its refusal.
pub fn import(file: &[u8], base: u32, length: u32) -> Result<Imported, u32> {
    // "A file of more than 2,097,152 bytes is refused by 37, whatever is in it; every other capture
    // has room."
    if file.len() > CAPTURE_ROOM {
        return Err(IMPORT_ROOM);
    }
    let records = capture::records(file)?;
    let header = Header::allowed(base, length).ok_or(WRITING_WINDOW)?;
    let events: Vec<Event> = records.iter().map(capture::event).collect();
    let mut output = format!("imported {}\n", records.len());
    for record in &records {
        let time = record.time;
        writeln!(output, "time {} {}", time.seconds, time.microseconds)
            .expect("a string takes all");
    }
    Ok(Imported {
        trace: block::all(&[header.bytes(), Event::list(&events)].concat()),
        output,
    })
}
