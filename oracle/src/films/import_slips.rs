//! Wrong readings of an import, and what each would make of a file: where that is something else, a
//! comparison catches it.

use crate::capture::header;
use crate::numbers::{
    FRAME_LENGTH, HEADER_CUT, HEADER_LINK, HEADER_MAGIC, HEADER_VERSION, IMPORT_ROOM, RECORD_CUT,
    RECORD_LENGTHS,
};
use crate::trace::block::number;

#[derive(Clone, Copy, Debug, PartialEq, Eq)]
pub enum ImportSlip {
    CheckSequenceNotAdded,
    LengthWithoutCheckSequence,
    SecondsAndMicrosecondsExchanged,
    MagicOfACutHeader,
    HighestByteFirstTaken,
    NanosecondsTaken,
    MinorVersionNotRead,
    MajorVersionNotRead,
    VersionsIn8Bits,
    LinkTypeIn16Bits,
    VersionBeforeMagic,
    LinkTypeBeforeVersion,
    ZoneRead,
    AccuracyRead,
    SnapLengthRead,
    HeaderAloneRefused,
    CutRecordLeftOut,
    UnequalTaken,
    UnequalBeforeCut,
    AllCutsFirst,
    RecordsBeforeHeader,
    RoomRecordByRecord,
    RoomForEventsNotAsked,
    RoomForTimesNotAsked,
    RoomWithoutCheckSequences,
    FrameLengthsAsked,
    LateMicrosecondsRefused,
}

use ImportSlip as Slip;

impl ImportSlip {
    pub const ALL: [ImportSlip; 27] = [
        Slip::CheckSequenceNotAdded,
        Slip::LengthWithoutCheckSequence,
        Slip::SecondsAndMicrosecondsExchanged,
        Slip::MagicOfACutHeader,
        Slip::HighestByteFirstTaken,
        Slip::NanosecondsTaken,
        Slip::MinorVersionNotRead,
        Slip::MajorVersionNotRead,
        Slip::VersionsIn8Bits,
        Slip::LinkTypeIn16Bits,
        Slip::VersionBeforeMagic,
        Slip::LinkTypeBeforeVersion,
        Slip::ZoneRead,
        Slip::AccuracyRead,
        Slip::SnapLengthRead,
        Slip::HeaderAloneRefused,
        Slip::CutRecordLeftOut,
        Slip::UnequalTaken,
        Slip::UnequalBeforeCut,
        Slip::AllCutsFirst,
        Slip::RecordsBeforeHeader,
        Slip::RoomRecordByRecord,
        Slip::RoomForEventsNotAsked,
        Slip::RoomForTimesNotAsked,
        Slip::RoomWithoutCheckSequences,
        Slip::FrameLengthsAsked,
        Slip::LateMicrosecondsRefused,
    ];

    /// Those whose answer, events or times would be others.
    pub fn caught(file: &[u8], events: usize, times: usize) -> Vec<ImportSlip> {
        let right = import(file, events, times, None);
        let other = |slip: &Slip| import(file, events, times, Some(*slip)) != right;
        Slip::ALL.into_iter().filter(other).collect()
    }
}

/// A frame as it is imported.
#[derive(Clone, Copy, Debug, PartialEq, Eq)]
pub struct Found<'file> {
    times: [u64; 2],
    /// The length that its event has.
    length: usize,
    bytes: &'file [u8],
    /// Whether the check sequence stands behind them.
    closed: bool,
}

#[cfg(test)]
impl<'file> Found<'file> {
    /// The record of a frame that is imported rightly.
    pub fn record(&self) -> crate::capture::Record<'file> {
        assert!(self.closed && self.length == self.bytes.len() + 4);
        let [seconds, microseconds] = self.times.map(|word| word as u32);
        let time = crate::capture::Time {
            seconds,
            microseconds,
        };
        let bytes = self.bytes;
        crate::capture::Record { time, bytes }
    }
}

/// The frames, or the number, by the right reading or a wrong one.
pub fn import(
    file: &[u8],
    events: usize,
    times: usize,
    slip: Option<Slip>,
) -> Result<Vec<Found<'_>>, u32> {
    let header = header_number(file, slip);
    let records = file.get(header::SIZE..).unwrap_or_default();
    if slip != Some(Slip::RecordsBeforeHeader) {
        header.map_or(Ok(()), Err)?;
    }
    let found = found(file, records, events, times, slip)?;
    header.map_or(Ok(()), Err)?;
    match room_number(&found, events, times, slip) {
        Some(number) => Err(number),
        None => Ok(found),
    }
}

fn header_number(file: &[u8], slip: Option<Slip>) -> Option<u32> {
    let magic = file.get(header::MAGIC).map(number);
    let wrong_magic = magic.is_some_and(|magic| match magic {
        0xA1B2_C3D4 => false,
        0xD4C3_B2A1 => slip != Some(Slip::HighestByteFirstTaken),
        0xA1B2_3C4D => slip != Some(Slip::NanosecondsTaken),
        _ => true,
    });
    let by_magic = wrong_magic.then_some(HEADER_MAGIC);
    if file.len() < header::SIZE {
        let early = by_magic.filter(|_| slip == Some(Slip::MagicOfACutHeader));
        return early.or(Some(HEADER_CUT));
    }
    let field = |range| number(&file[range]);
    let cut = |version: u64| match slip {
        Some(Slip::VersionsIn8Bits) => version & 0xFF,
        _ => version,
    };
    let major = slip != Some(Slip::MajorVersionNotRead) && cut(field(header::MAJOR)) != 2;
    let minor = slip != Some(Slip::MinorVersionNotRead) && cut(field(header::MINOR)) != 4;
    let by_version = (major || minor).then_some(HEADER_VERSION);
    let link = match slip {
        Some(Slip::LinkTypeIn16Bits) => field(header::LINK) & 0xFFFF,
        _ => field(header::LINK),
    };
    let by_link = (link != 1).then_some(HEADER_LINK);
    let unread = match slip {
        Some(Slip::ZoneRead) => field(header::ZONE) != 0,
        Some(Slip::AccuracyRead) => field(header::ACCURACY) != 0,
        _ => false,
    };
    let by_unread = unread.then_some(HEADER_VERSION);
    let order = match slip {
        Some(Slip::VersionBeforeMagic) => [by_version, by_magic, by_link],
        Some(Slip::LinkTypeBeforeVersion) => [by_magic, by_link, by_version],
        _ => [by_magic, by_version, by_link],
    };
    order.into_iter().flatten().next().or(by_unread)
}

/// The records one by one, up to the first that is refused.
fn found<'file>(
    file: &[u8],
    records: &'file [u8],
    events: usize,
    times: usize,
    slip: Option<Slip>,
) -> Result<Vec<Found<'file>>, u32> {
    let mut found = Vec::new();
    let mut unequal_before = None;
    let mut rest = records;
    if rest.is_empty() && slip == Some(Slip::HeaderAloneRefused) {
        return Err(RECORD_CUT);
    }
    while !rest.is_empty() {
        let (number, size) = record_number(file, rest, slip);
        match number {
            Some(RECORD_CUT) if slip == Some(Slip::CutRecordLeftOut) => break,
            // It is kept in mind, and the cuts behind it come first.
            Some(RECORD_LENGTHS) if slip == Some(Slip::AllCutsFirst) => {
                unequal_before = number;
            }
            Some(number) => return Err(number),
            None => {}
        }
        found.push(one(&rest[..size], slip));
        rest = &rest[size..];
        let room = room_number(&found, events, times, slip);
        if slip == Some(Slip::RoomRecordByRecord) && room.is_some() {
            return Err(IMPORT_ROOM);
        }
    }
    match unequal_before {
        Some(number) => Err(number),
        None => Ok(found),
    }
}

/// What is wrong with the first record, and how many bytes it has where it is all there.
fn record_number(file: &[u8], rest: &[u8], slip: Option<Slip>) -> (Option<u32>, usize) {
    if rest.len() < 16 {
        return (Some(RECORD_CUT), 0);
    }
    let [microseconds, captured, original] =
        [4, 8, 12].map(|place| number(&rest[place..place + 4]) as usize);
    let cut = (captured > rest.len() - 16).then_some(RECORD_CUT);
    let asked = slip != Some(Slip::UnequalTaken);
    let unequal = (asked && captured != original).then_some(RECORD_LENGTHS);
    let size = if cut.is_some() { 0 } else { 16 + captured };
    let first = match slip {
        Some(Slip::UnequalBeforeCut) => unequal.or(cut),
        _ => cut.or(unequal),
    };
    let snap = || number(&file[header::SNAP]) as usize;
    let more = match slip {
        Some(Slip::FrameLengthsAsked) => !(60..=1_514).contains(&captured),
        Some(Slip::LateMicrosecondsRefused) => microseconds > 999_999,
        Some(Slip::SnapLengthRead) => captured > snap(),
        _ => false,
    };
    (first.or(more.then_some(FRAME_LENGTH)), size)
}

/// The frame of a record that is all there.
fn one(record: &[u8], slip: Option<Slip>) -> Found<'_> {
    let (head, bytes) = record.split_at(16);
    let mut times = [number(&head[..4]), number(&head[4..8])];
    if slip == Some(Slip::SecondsAndMicrosecondsExchanged) {
        times.reverse();
    }
    let closed = slip != Some(Slip::CheckSequenceNotAdded);
    let counted = closed && slip != Some(Slip::LengthWithoutCheckSequence);
    Found {
        times,
        length: bytes.len() + if counted { 4 } else { 0 },
        bytes,
        closed,
    }
}

fn room_number(found: &[Found], events: usize, times: usize, slip: Option<Slip>) -> Option<u32> {
    let check = match slip {
        Some(Slip::RoomWithoutCheckSequences) => 0,
        _ => 4,
    };
    let needed: usize = found
        .iter()
        .map(|found| 5 + found.bytes.len() + check)
        .sum();
    let by_events = needed > events && slip != Some(Slip::RoomForEventsNotAsked);
    let by_times = 8 * found.len() > times && slip != Some(Slip::RoomForTimesNotAsked);
    (by_events || by_times).then_some(IMPORT_ROOM)
}
