//! A list of events as bytes: where each event starts, and what it is.

use super::block::number;
use super::event::{Event, FRAME, GRANT, SEND, WRITE};

/// What stands at the front of a piece of a list.
#[derive(Clone, Copy, Debug, PartialEq, Eq)]
pub enum Front {
    /// An event of this many bytes, all there.
    Whole(usize),
    /// The front of an event whose other bytes are missing.
    Cut,
    /// A byte that no event can have there.
    None,
}

/// Looks at the front of a list that is not empty.
pub fn front(list: &[u8]) -> Front {
    let size = match list[0] {
        WRITE => 1 + 4 + 4,
        GRANT => 1 + 4,
        FRAME => match list.get(1..5) {
            Some(length) => 1 + 4 + number(length),
            None => return Front::Cut,
        },
        SEND => 1,
        _ => return Front::None,
    };
    match usize::try_from(size) {
        Ok(size) if size <= list.len() => Front::Whole(size),
        _ => Front::Cut,
    }
}

/// Where the events of a list start, or nothing if it is not of its form.
pub fn starts(list: &[u8]) -> Option<Vec<usize>> {
    let mut starts = Vec::new();
    let mut place = 0;
    while place < list.len() {
        let Front::Whole(size) = front(&list[place..]) else {
            return None;
        };
        starts.push(place);
        place += size;
    }
    Some(starts)
}

/// The events of a list of its form, one behind the other.
pub fn events(list: &[u8]) -> impl Iterator<Item = Event> + '_ {
    let mut rest = list;
    std::iter::from_fn(move || {
        if rest.is_empty() {
            return None;
        }
        let Front::Whole(size) = front(rest) else {
            panic!("the list is not of its form");
        };
        let (event, behind) = rest.split_at(size);
        rest = behind;
        Some(of(event))
    })
}

/// The events at the front of any bytes, up to where there is no whole one.
pub fn whole_events(list: &[u8]) -> impl Iterator<Item = Event> + '_ {
    let mut end = 0;
    while let Some(rest) = list.get(end..).filter(|rest| !rest.is_empty()) {
        match front(rest) {
            Front::Whole(size) => end += size,
            Front::Cut | Front::None => break,
        }
    }
    events(&list[..end])
}

/// The event of a byte string that is one.
fn of(bytes: &[u8]) -> Event {
    let word = |place: usize| number(&bytes[place..place + 4]) as u32;
    match bytes[0] {
        WRITE => Event::Write {
            offset: word(1),
            value: word(5),
        },
        GRANT => Event::Grant { address: word(1) },
        FRAME => Event::Frame {
            bytes: bytes[5..].to_vec(),
        },
        _ => Event::Send,
    }
}
