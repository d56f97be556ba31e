//! A recorded day: what is in a script of console lines that can be recorded.

#[cfg(test)]
mod tests;

use crate::console::{self, Call};
use crate::device::Window;
use crate::trace::{block, Event, Header};

/// The least output of a send that is recorded: then no room is too small for it.
const ROOM_LEAST: u32 = 1_518;

/// The window, its bytes at the start, and what happened.
#[derive(Clone, Debug, PartialEq, Eq)]
pub struct Recording {
    pub header: Header,
    pub image: Vec<u8>,
    pub events: Vec<Event>,
}

impl Recording {
    /// The event data of the whole trace.
    pub fn data(&self) -> Vec<u8> {
        [self.header.bytes(), Event::list(&self.events)].concat()
    }

    /// The blocks of the trace.
    pub fn trace(&self) -> Vec<u8> {
        block::all(&self.data())
    }
}

/// The recording of a script, or the number of the line that is wrong: first `new` of an allowed
/// window, then any `poke` into it, then any events. Without `new` the last line is wrong, 0 if
/// there is none.
pub fn of(script: &[u8]) -> Result<Recording, usize> {
    let lines = console::lines(script);
    let mut recording = None;
    for (place, line) in lines.iter().enumerate() {
        if line.is_empty() || line.starts_with(b"#") {
            continue;
        }
        let call = console::call(line);
        call.and_then(|call| take(&mut recording, call))
            .ok_or(place + 1)?;
    }
    recording.ok_or(lines.len())
}

/// Takes one call, or gives nothing if it cannot stand there.
fn take(recording: &mut Option<Recording>, call: Call) -> Option<()> {
    let Some(recording) = recording else {
        let Call::New { base, length } = call else {
            return None;
        };
        *recording = Some(Recording {
            header: Header::allowed(base, length)?,
            image: vec![0; length as usize],
            events: Vec::new(),
        });
        return Some(());
    };
    let event = match call {
        Call::Poke { address, bytes } if recording.events.is_empty() => {
            let Header { base, length } = recording.header;
            let window = Window::allowed(base.into(), length.into())?;
            let places = window.places(address, bytes.len() as u64)?;
            recording.image[places].copy_from_slice(&bytes);
            return Some(());
        }
        Call::Write { offset, value } => Event::Write { offset, value },
        Call::Grant { address } => Event::Grant { address },
        Call::Frame { bytes } => Event::Frame { bytes },
        Call::Send { room } if room >= ROOM_LEAST => Event::Send,
        _ => return None,
    };
    recording.events.push(event);
    Some(())
}
