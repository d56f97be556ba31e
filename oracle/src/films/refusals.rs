//! All refusals that a list or a capture would be right to be given, the one that it is given first.

use crate::capture::record::{front, Front, CAPTURED, HEAD, ORIGINAL};
use crate::capture::{header, list};
use crate::check;
use crate::numbers::{
    EXPORT_ROOM, FRAMES_FORM, FRAME_CHECK, FRAME_LENGTH, HEADER_CUT, HEADER_LINK, HEADER_MAGIC,
    HEADER_VERSION, IMPORT_ROOM, RECORD_CUT, RECORD_LENGTHS,
};
use crate::trace::block::number;

/// The refusals of an export in their order: of its form, of each wrong frame, of its room.
pub fn of_export(list: &[u8], room: usize) -> Vec<u32> {
    let (frames, rest) = list::front(list);
    let mut refusals = Vec::new();
    if !rest.is_empty() {
        refusals.push(FRAMES_FORM);
    }
    for timed in &frames {
        if timed.frame.len() < 64 || timed.frame.len() > 1_518 {
            refusals.push(FRAME_LENGTH);
        }
        if !check::right(&timed.frame) {
            refusals.push(FRAME_CHECK);
        }
    }
    if room < header::SIZE + list.len() {
        refusals.push(EXPORT_ROOM);
    }
    refusals
}

/// The refusals of an import in their order: of each field of the header, as far as it is there, of
/// each wrong record, of its rooms.
pub fn of_import(file: &[u8], events: usize, times: usize) -> Vec<u32> {
    let mut refusals = Vec::new();
    if file.len() < header::SIZE {
        refusals.push(HEADER_CUT);
    }
    let field = |from: usize, to: usize| file.get(from..to).map(number);
    if field(0, 4).is_some_and(|magic| magic != 0xA1B2_C3D4) {
        refusals.push(HEADER_MAGIC);
    }
    // 2 in the lower half, and 4 in the upper.
    if field(4, 8).is_some_and(|version| version != 0x0004_0002) {
        refusals.push(HEADER_VERSION);
    }
    if field(20, 24).is_some_and(|link| link != 1) {
        refusals.push(HEADER_LINK);
    }
    let walked = walked(file);
    refusals.extend(walked.refusals);
    if events < walked.events || times < walked.times {
        refusals.push(IMPORT_ROOM);
    }
    refusals
}

/// What is met from record to record, whatever the header is.
#[derive(Default)]
pub struct Walked {
    pub refusals: Vec<u32>,
    /// How many records are right, and how many bytes of events and times they need.
    pub frames: usize,
    pub events: usize,
    pub times: usize,
}

/// Goes over all records; behind an unequal one the next is where its captured length says.
pub fn walked(file: &[u8]) -> Walked {
    let mut walked = Walked::default();
    let mut rest = file.get(header::SIZE..).unwrap_or_default();
    while !rest.is_empty() {
        let lengths = rest.get(CAPTURED..HEAD).map(|lengths| {
            let (captured, original) = lengths.split_at(ORIGINAL - CAPTURED);
            (number(captured) as usize, captured != original)
        });
        match (front(rest), lengths) {
            (Front::Whole(record, behind), _) => {
                walked.frames += 1;
                walked.events += 5 + record.bytes.len() + 4;
                walked.times += 8;
                rest = behind;
            }
            (Front::Unequal, Some((captured, _))) => {
                walked.refusals.push(RECORD_LENGTHS);
                rest = &rest[HEAD + captured..];
            }
            (_, lengths) => {
                walked.refusals.push(RECORD_CUT);
                if lengths.is_some_and(|(_, unequal)| unequal) {
                    walked.refusals.push(RECORD_LENGTHS);
                }
                rest = &[];
            }
        }
    }
    walked
}
