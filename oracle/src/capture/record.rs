//! A record of a capture: "16 bytes before each frame, both lengths equal", and the frame without its
//! check sequence.

use super::{word, Time};

/// The bytes before the frame.
pub const HEAD: usize = 16;

/// Where its lengths stand.
pub const CAPTURED: usize = 8;
pub const ORIGINAL: usize = 12;

/// A record that is whole, with equal lengths.
#[derive(Clone, Copy, Debug, PartialEq, Eq)]
pub struct Record<'file> {
    pub time: Time,
    pub bytes: &'file [u8],
}

/// What stands at the front of records.
#[derive(Clone, Copy, Debug, PartialEq, Eq)]
pub enum Front<'file> {
    /// A record with equal lengths, and what is behind it.
    Whole(Record<'file>, &'file [u8]),
    /// One that is all there, whose lengths are unequal.
    Unequal,
    /// One that is not all there, whatever its lengths are.
    Cut,
}

/// The bytes of a record.
pub fn made(time: Time, bytes: &[u8]) -> Vec<u8> {
    let length = u32::try_from(bytes.len()).expect("a record has a length of 32 bits");
    let length = length.to_le_bytes();
    [&time.bytes()[..], &length, &length, bytes].concat()
}

/// Looks at the front of records that are not empty.
pub fn front(records: &[u8]) -> Front<'_> {
    let Some((head, behind)) = records.split_at_checked(HEAD) else {
        return Front::Cut;
    };
    let captured = word(head, CAPTURED);
    let Some((bytes, behind)) = behind.split_at_checked(captured as usize) else {
        return Front::Cut;
    };
    if word(head, ORIGINAL) != captured {
        return Front::Unequal;
    }
    let time = Time {
        seconds: word(head, 0),
        microseconds: word(head, 4),
    };
    Front::Whole(Record { time, bytes }, behind)
}
