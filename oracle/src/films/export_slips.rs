//! Wrong readings of an export, and what each would make of a list: where that is something else, a
//! comparison catches it.

use crate::capture::{header, list, Time, Timed};
use crate::check;
use crate::numbers::{EXPORT_ROOM, FRAMES_FORM, FRAME_CHECK, FRAME_LENGTH};

#[derive(Clone, Copy, Debug, PartialEq, Eq)]
pub enum ExportSlip {
    CheckSequenceLeftIn,
    BothLengthsWithCheckSequence,
    OriginalLengthWithCheckSequence,
    SecondsAndMicrosecondsExchanged,
    MicrosecondsCarried,
    HighestByteFirst,
    RoomBeforeForm,
    RoomBeforeFrames,
    RoomWithoutHeader,
    FramesBeforeForm,
    CheckBeforeLength,
    LengthsOfAllFirst,
    LastWrongFrame,
    CutEntryLeftOut,
    LengthsWithoutCheckSequence,
    ShorterFramesTaken,
    ChecksNotAsked,
}

impl ExportSlip {
    pub const ALL: [ExportSlip; 17] = [
        ExportSlip::CheckSequenceLeftIn,
        ExportSlip::BothLengthsWithCheckSequence,
        ExportSlip::OriginalLengthWithCheckSequence,
        ExportSlip::SecondsAndMicrosecondsExchanged,
        ExportSlip::MicrosecondsCarried,
        ExportSlip::HighestByteFirst,
        ExportSlip::RoomBeforeForm,
        ExportSlip::RoomBeforeFrames,
        ExportSlip::RoomWithoutHeader,
        ExportSlip::FramesBeforeForm,
        ExportSlip::CheckBeforeLength,
        ExportSlip::LengthsOfAllFirst,
        ExportSlip::LastWrongFrame,
        ExportSlip::CutEntryLeftOut,
        ExportSlip::LengthsWithoutCheckSequence,
        ExportSlip::ShorterFramesTaken,
        ExportSlip::ChecksNotAsked,
    ];

    /// Those whose answer or file would be another.
    pub fn caught(list: &[u8], room: usize) -> impl Iterator<Item = ExportSlip> {
        let taken = Taken::new(list, room);
        let right = taken.export(None);
        ExportSlip::ALL
            .into_iter()
            .filter(move |slip| taken.export(Some(*slip)) != right)
    }
}

/// The file behind its header, or the number, by the right reading.
#[cfg(test)]
pub fn right(list: &[u8], room: usize) -> Result<Vec<u8>, u32> {
    Taken::new(list, room).export(None)
}

/// A list taken apart once for all readings.
struct Taken {
    frames: Vec<Timed>,
    /// Whether the check sequence of each is right.
    checks: Vec<bool>,
    cut: bool,
    length: usize,
    room: usize,
}

impl Taken {
    fn new(list: &[u8], room: usize) -> Taken {
        let (frames, rest) = list::front(list);
        Taken {
            checks: frames
                .iter()
                .map(|timed| check::right(&timed.frame))
                .collect(),
            frames,
            cut: !rest.is_empty(),
            length: list.len(),
            room,
        }
    }

    /// The file behind its header, or the number, by the right reading or a wrong one.
    fn export(&self, slip: Option<ExportSlip>) -> Result<Vec<u8>, u32> {
        let form = (self.cut && slip != Some(ExportSlip::CutEntryLeftOut)).then_some(FRAMES_FORM);
        let frames = self.wrong(slip);
        let header = match slip {
            Some(ExportSlip::RoomWithoutHeader) => 0,
            _ => header::SIZE,
        };
        let room = (self.room < header + self.length).then_some(EXPORT_ROOM);
        let order = match slip {
            Some(ExportSlip::RoomBeforeForm) => [room, form, frames],
            Some(ExportSlip::RoomBeforeFrames) => [form, room, frames],
            Some(ExportSlip::FramesBeforeForm) => [frames, form, room],
            _ => [form, frames, room],
        };
        match order.into_iter().flatten().next() {
            Some(number) => Err(number),
            None => Ok(self.records(slip)),
        }
    }

    /// The number of the frame that is wrong first.
    fn wrong(&self, slip: Option<ExportSlip>) -> Option<u32> {
        let numbers: Vec<u32> = self
            .frames
            .iter()
            .zip(&self.checks)
            .filter_map(|(timed, right)| number(timed.frame.len(), *right, slip))
            .collect();
        match slip {
            Some(ExportSlip::LastWrongFrame) => numbers.last().copied(),
            Some(ExportSlip::LengthsOfAllFirst) => numbers.into_iter().min(),
            _ => numbers.first().copied(),
        }
    }

    fn records(&self, slip: Option<ExportSlip>) -> Vec<u8> {
        let mut records = Vec::new();
        for Timed { time, frame } in &self.frames {
            let closed = frame.len();
            let open = closed.saturating_sub(4);
            let (captured, original, shown) = match slip {
                Some(ExportSlip::CheckSequenceLeftIn) => (closed, closed, closed),
                Some(ExportSlip::BothLengthsWithCheckSequence) => (closed, closed, open),
                Some(ExportSlip::OriginalLengthWithCheckSequence) => (open, closed, open),
                _ => (open, open, open),
            };
            let [seconds, microseconds] = times(*time, slip);
            for word in [seconds, microseconds, captured as u32, original as u32] {
                records.extend(match slip {
                    Some(ExportSlip::HighestByteFirst) => word.to_be_bytes(),
                    _ => word.to_le_bytes(),
                });
            }
            records.extend(&frame[..shown]);
        }
        records
    }
}

/// What is wrong with a frame.
fn number(length: usize, right: bool, slip: Option<ExportSlip>) -> Option<u32> {
    let allowed = match slip {
        Some(ExportSlip::LengthsWithoutCheckSequence) => 68..=1_522,
        Some(ExportSlip::ShorterFramesTaken) => 60..=1_518,
        _ => 64..=1_518,
    };
    let by_length = (!allowed.contains(&length)).then_some(FRAME_LENGTH);
    let asked = slip != Some(ExportSlip::ChecksNotAsked);
    let by_check = (asked && !right).then_some(FRAME_CHECK);
    match slip {
        Some(ExportSlip::CheckBeforeLength) => by_check.or(by_length),
        _ => by_length.or(by_check),
    }
}

fn times(time: Time, slip: Option<ExportSlip>) -> [u32; 2] {
    let Time {
        seconds,
        microseconds,
    } = time;
    match slip {
        Some(ExportSlip::SecondsAndMicrosecondsExchanged) => [microseconds, seconds],
        Some(ExportSlip::MicrosecondsCarried) => [
            seconds.wrapping_add(microseconds / 1_000_000),
            microseconds % 1_000_000,
        ],
        _ => [seconds, microseconds],
    }
}
