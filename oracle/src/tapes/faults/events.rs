//! Event faults: bytes that no event can have there, cut events, and windows that are not allowed.

use crate::random::Random;
use crate::tapes::Tape;
use crate::trace::block;

pub const NAMES: &[&str] = &[
    "first byte 0",
    "first byte 5",
    "first byte 255",
    "first byte unknown",
    "cut",
    "begun",
    "base no multiple of 4",
    "window no multiple of 4",
    "window under 64",
    "window past the last address",
];

pub fn event(tape: &mut Tape, place: usize, random: &mut Random) -> Option<&'static str> {
    let last = place + 1 == tape.blocks();
    match random.below(6) {
        0 | 1 if last => cut(tape, place, random),
        2 if last => begun(tape, place, random),
        3 if place == 0 => Some(window(tape, random)),
        _ => unknown(tape, place, random),
    }
}

/// A first byte that no event has.
fn unknown(tape: &mut Tape, place: usize, random: &mut Random) -> Option<&'static str> {
    let mut starts = tape.starts_in(place);
    starts.retain(|start| *start < tape.used_by_now(place));
    let (first, last) = (starts.first().copied()?, starts.last().copied()?);
    let start = match random.below(4) {
        0 => first,
        1 => last,
        _ => random.pick(&starts),
    };
    let (byte, name) = match random.below(4) {
        0 => (0, "first byte 0"),
        1 => (5, "first byte 5"),
        2 => (255, "first byte 255"),
        _ => (random.between(5, 255) as u8, "first byte unknown"),
    };
    tape.block(place)[block::DATA][start] = byte;
    Some(name)
}

/// The last block ends inside an event.
fn cut(tape: &mut Tape, place: usize, random: &mut Random) -> Option<&'static str> {
    let whole = tape.starts_in(place);
    let header = if place == 0 { 0..6 } else { 0..0 };
    let cuts: Vec<usize> = (1..tape.used(place))
        .filter(|end| !whole.contains(end) && !header.contains(end))
        .collect();
    if cuts.is_empty() {
        return None;
    }
    let end = random.pick(&cuts);
    tape.put_used(place, end as u16);
    tape.block(place)[block::DATA][end..].fill(0);
    Some("cut")
}

/// An event begun behind the last one.
fn begun(tape: &mut Tape, place: usize, random: &mut Random) -> Option<&'static str> {
    let begun: &[u8] = match random.below(6) {
        0 => &[1],
        1 => &[2, 0, 0, 0],
        2 => &[3, 1, 0, 0],
        3 => &[3, 0xFF, 0xFF, 0xFF, 0xFF],
        4 => &[3, 1, 0, 0, 0],
        _ => &[1, 4, 0, 0, 0, 0, 0, 0],
    };
    let used = tape.used(place);
    let end = used + begun.len();
    if end > block::DATA_MOST {
        return None;
    }
    tape.put_used(place, end as u16);
    let data = &mut tape.block(place)[block::DATA];
    data[used..end].copy_from_slice(begun);
    // A longer one may have been begun there before.
    data[end..].fill(0);
    Some("begun")
}

/// A header whose window is not allowed.
fn window(tape: &mut Tape, random: &mut Random) -> &'static str {
    let header = &mut tape.block(0)[block::DATA][..6];
    match random.below(5) {
        0 => {
            header[0] |= random.pick(&[1, 2, 3]);
            "base no multiple of 4"
        }
        1 => {
            header[4] ^= random.pick(&[1, 2, 3]);
            "window no multiple of 4"
        }
        2 => {
            let length = 4 * random.below(16) as u16;
            header[4..].copy_from_slice(&length.wrapping_sub(1).to_le_bytes());
            if length == 0 {
                // Less one this is FFFF, which is allowed; so the base is not.
                header[0] |= 1;
            }
            "window under 64"
        }
        3 => {
            header[..4].copy_from_slice(&[0xC4, 0xFF, 0xFF, 0xFF]);
            header[4] |= 63;
            "window past the last address"
        }
        _ => {
            header.copy_from_slice(&[0x04, 0x00, 0xFF, 0xFF, 0xFF, 0xFF]);
            "window past the last address"
        }
    }
}
