//! The list of frames that an export takes, as docs/CAPTURE.md fixes it: of each frame its time, its
//! length, and its bytes from destination address to check sequence.

use super::{word, Time, Timed};

/// The bytes of an entry before its frame.
pub const HEAD: usize = 12;

/// Where its length stands.
pub const LENGTH: usize = 8;

/// The bytes of a list.
pub fn made(frames: &[Timed]) -> Vec<u8> {
    frames.iter().flat_map(entry).collect()
}

fn entry(timed: &Timed) -> Vec<u8> {
    let length = u32::try_from(timed.frame.len()).expect("a frame has a length of 32 bits");
    [&timed.time.bytes()[..], &length.to_le_bytes(), &timed.frame].concat()
}

/// The frames of a list, or nothing if the last entry is cut.
pub fn frames(list: &[u8]) -> Option<Vec<Timed>> {
    let (frames, rest) = front(list);
    rest.is_empty().then_some(frames)
}

/// The frames of the whole entries at the front of any bytes, and what is left behind them.
pub fn front(list: &[u8]) -> (Vec<Timed>, &[u8]) {
    let mut frames = Vec::new();
    let mut rest = list;
    while let Some((timed, behind)) = first(rest) {
        frames.push(timed);
        rest = behind;
    }
    (frames, rest)
}

/// The first entry, and what is behind it; nothing if it is not all there.
fn first(list: &[u8]) -> Option<(Timed, &[u8])> {
    let (head, behind) = list.split_at_checked(HEAD)?;
    let (frame, behind) = behind.split_at_checked(word(head, LENGTH) as usize)?;
    let time = Time {
        seconds: word(head, 0),
        microseconds: word(head, 4),
    };
    let frame = frame.to_vec();
    Some((Timed { time, frame }, behind))
}
