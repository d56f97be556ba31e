//! "Export takes whole frames, refuses a list not of its form in docs/, answers 4 or 5 for the first
//! wrong one, and refuses too little room."

use super::{header, list, record, Timed};
use crate::check;
use crate::numbers::{DONE, EXPORT_ROOM, FRAMES_FORM, FRAME_CHECK, FRAME_LENGTH};

/// The bytes of a check sequence.
const CHECK: usize = 4;

/// What an export answers; no bytes and no frames if it is refused.
#[derive(Clone, Copy, Debug, Default, PartialEq, Eq)]
pub struct Exported {
    pub number: u32,
    pub bytes: u64,
    pub frames: u64,
}

/// Puts the capture of a list at the front of the room and leaves its rest. A refusal changes nothing.
pub fn export(list: &[u8], room: &mut [u8]) -> Exported {
    match made(list, room.len()) {
        Err(number) => Exported {
            number,
            ..Exported::default()
        },
        Ok((file, frames)) => {
            room[..file.len()].copy_from_slice(&file);
            Exported {
                number: DONE,
                bytes: file.len() as u64,
                frames: frames as u64,
            }
        }
    }
}

/// The capture of a list that is not refused and how many frames it has, or the first refusal.
fn made(list: &[u8], room: usize) -> Result<(Vec<u8>, usize), u32> {
    let frames = list::frames(list).ok_or(FRAMES_FORM)?;
    if let Some(number) = first_wrong(&frames) {
        return Err(number);
    }
    let file = file(&frames);
    if file.len() > room {
        return Err(EXPORT_ROOM);
    }
    Ok((file, frames.len()))
}

/// The number of the first wrong frame, if there is one.
pub fn first_wrong(frames: &[Timed]) -> Option<u32> {
    frames.iter().find_map(wrong)
}

/// What is wrong with a frame: 4 for its length, and then 5 for its check sequence.
fn wrong(timed: &Timed) -> Option<u32> {
    if !(64..=1_518).contains(&timed.frame.len()) {
        return Some(FRAME_LENGTH);
    }
    (!check::right(&timed.frame)).then_some(FRAME_CHECK)
}

/// The capture of frames that are none of them wrong: "frames go without their check sequence".
pub fn file(frames: &[Timed]) -> Vec<u8> {
    let mut file = header::made().to_vec();
    for Timed { time, frame } in frames {
        file.extend(record::made(*time, &frame[..frame.len() - CHECK]));
    }
    file
}
