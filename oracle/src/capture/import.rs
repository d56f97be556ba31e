//! "Import the same profile into frame events, times beside them, with the check sequence added. A cut
//! header, other magics, versions, link types, then, record by record, cut records and unequal lengths,
//! then too little room are refused."

use super::record::{front, Front};
use super::{header, Record, Time};
use crate::check;
use crate::numbers::{DONE, IMPORT_ROOM, RECORD_CUT, RECORD_LENGTHS};
use crate::trace::Event;

/// What an import answers; no bytes and no frames if it is refused.
#[derive(Clone, Copy, Debug, Default, PartialEq, Eq)]
pub struct Imported {
    pub number: u32,
    pub bytes: u64,
    pub frames: u64,
}

/// Puts a frame event for each record at the front of one room and the times at the front of the
/// other, and leaves their rests. A refusal changes nothing.
pub fn import(file: &[u8], events: &mut [u8], times: &mut [u8]) -> Imported {
    match strings(file, events.len(), times.len()) {
        Err(number) => Imported {
            number,
            ..Imported::default()
        },
        Ok(strings) => {
            events[..strings.events.len()].copy_from_slice(&strings.events);
            times[..strings.times.len()].copy_from_slice(&strings.times);
            Imported {
                number: DONE,
                bytes: strings.events.len() as u64,
                frames: (strings.times.len() / Time::SIZE) as u64,
            }
        }
    }
}

/// What comes to the front of the two rooms.
struct Strings {
    events: Vec<u8>,
    times: Vec<u8>,
}

fn strings(file: &[u8], events: usize, times: usize) -> Result<Strings, u32> {
    let records = records(file)?;
    if !records.iter().all(|record| has_length(record.bytes.len())) {
        return Err(IMPORT_ROOM);
    }
    let made = Strings {
        events: records
            .iter()
            .flat_map(|record| event(record).bytes())
            .collect(),
        times: records
            .iter()
            .flat_map(|record| record.time.bytes())
            .collect(),
    };
    if made.events.len() > events || made.times.len() > times {
        return Err(IMPORT_ROOM);
    }
    Ok(made)
}

/// Whether a record of this many bytes has, with its check sequence, a length of 32 bits.
pub(super) fn has_length(bytes: usize) -> bool {
    bytes as u64 + 4 <= u64::from(u32::MAX)
}

/// The records of a capture, or why it is refused, whatever the rooms are.
pub fn records(file: &[u8]) -> Result<Vec<Record<'_>>, u32> {
    let mut rest = header::behind(file)?;
    let mut records = Vec::new();
    while !rest.is_empty() {
        match front(rest) {
            Front::Cut => return Err(RECORD_CUT),
            Front::Unequal => return Err(RECORD_LENGTHS),
            Front::Whole(record, behind) => {
                records.push(record);
                rest = behind;
            }
        }
    }
    Ok(records)
}

/// The frame event of a record, "with the check sequence added".
pub fn event(record: &Record) -> Event {
    Event::Frame {
        bytes: check::closed(record.bytes),
    }
}
