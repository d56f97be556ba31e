//! "An exported file imports to the same frames and times"; and a capture as an export makes it is,
//! byte for byte, what is exported of what was imported. Both are asked of the library and of the
//! oracle.

use crate::found::FOUND;
use crate::{expected, library};
use oracle::capture::{self, header, list, record, Timed};
use oracle::difference::{self, BEFORE};
use oracle::numbers::DONE;
use oracle::tally::Tally;
use oracle::trace::{self, Event};

/// Imports the file of a list again.
pub fn imported(tally: &mut Tally, list: &[u8], file: &[u8]) -> Result<(), String> {
    let frames = list::frames(list).expect("a list that is exported is of its form");
    if !frames.is_empty() {
        tally.met(expected::IMPORTED_AGAIN);
    }
    let wanted_events: Vec<u8> = frames.iter().flat_map(event).collect();
    let wanted_times: Vec<u8> = frames.iter().flat_map(|timed| timed.time.bytes()).collect();
    let numbers = [DONE.into(), wanted_events.len() as u64, frames.len() as u64];
    let before = (
        vec![0xB6; wanted_events.len()],
        vec![0xB6; wanted_times.len()],
    );

    let (mut events, mut times) = before.clone();
    let by_oracle = capture::import(file, &mut events, &mut times);
    assert_eq!(
        (by_oracle.number, events, times),
        (DONE, wanted_events.clone(), wanted_times.clone())
    );

    let (mut events, mut times) = before.clone();
    let mut got = [BEFORE; FOUND.len()];
    library::import(file, &mut events, &mut times, &mut got);
    difference::found(&FOUND, &numbers, &got)
        .and_then(|()| difference::buffer("the events", &before.0, &wanted_events, &events))
        .and_then(|()| difference::buffer("the times", &before.1, &wanted_times, &times))
        .map_err(|text| format!("imported again of what was exported: {text}"))
}

fn event(timed: &Timed) -> Vec<u8> {
    let bytes = timed.frame.clone();
    Event::Frame { bytes }.bytes()
}

/// Exports again what was imported of a file, if that is one that an export could have made.
pub fn exported(tally: &mut Tally, file: &[u8], events: &[u8], times: &[u8]) -> Result<(), String> {
    if !as_exported(file) {
        return Ok(());
    }
    if !times.is_empty() {
        tally.met(expected::EXPORTED_AGAIN);
    }
    let mut list = Vec::new();
    for (event, time) in trace::events(events).zip(times.chunks(8)) {
        let Event::Frame { bytes } = event else {
            return Err("an import makes frame events alone".to_string());
        };
        list.extend([time, &(bytes.len() as u32).to_le_bytes(), &bytes].concat());
    }
    let before = vec![0xB6; file.len()];

    let mut room = before.clone();
    let by_oracle = capture::export(&list, &mut room);
    assert_eq!((by_oracle.number, &room[..]), (DONE, file));

    let mut room = before.clone();
    let mut got = [BEFORE; FOUND.len()];
    library::export(&list, &mut room, &mut got);
    let numbers = [DONE.into(), file.len() as u64, (times.len() / 8) as u64];
    difference::found(&FOUND, &numbers, &got)
        .and_then(|()| difference::buffer("the capture", &before, file, &room))
        .map_err(|text| format!("exported again of what was imported: {text}"))
}

/// Whether a file that is not refused has the header of one that is made, and records of 60 to 1,514
/// bytes.
fn as_exported(file: &[u8]) -> bool {
    let lengths = capture::records(file).map(|records| {
        records
            .iter()
            .all(|record: &record::Record| (60..=1_514).contains(&record.bytes.len()))
    });
    file.starts_with(&header::made()) && lengths == Ok(true)
}
