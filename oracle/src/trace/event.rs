//! "Events are register write, grant, frame and single send": their bytes, as docs/TRACE.md fixes
//! them, and the call that each one stands for.

use crate::device::Bench;

/// The first byte of each event.
pub const WRITE: u8 = 1;
pub const GRANT: u8 = 2;
pub const FRAME: u8 = 3;
pub const SEND: u8 = 4;

#[derive(Clone, Debug, PartialEq, Eq)]
pub enum Event {
    Write { offset: u32, value: u32 },
    Grant { address: u32 },
    Frame { bytes: Vec<u8> },
    Send,
}

/// What the direct call of an event answers.
#[derive(Clone, Copy, Debug, PartialEq, Eq)]
pub struct Answer {
    pub number: u32,
    /// How many bytes a send put at the front of the output.
    pub sent: usize,
}

impl Event {
    /// The one byte string of this event.
    pub fn bytes(&self) -> Vec<u8> {
        match self {
            Event::Write { offset, value } => {
                [&[WRITE][..], &offset.to_le_bytes(), &value.to_le_bytes()].concat()
            }
            Event::Grant { address } => [&[GRANT][..], &address.to_le_bytes()].concat(),
            Event::Frame { bytes } => {
                [&[FRAME][..], &(bytes.len() as u32).to_le_bytes(), bytes].concat()
            }
            Event::Send => vec![SEND],
        }
    }

    /// The bytes of a list of events.
    pub fn list(events: &[Event]) -> Vec<u8> {
        events.iter().flat_map(Event::bytes).collect()
    }

    /// The direct call. A single send is lent the whole output.
    pub fn call(&self, bench: &mut Bench, memory: &mut [u8], output: &mut [u8]) -> Answer {
        let (number, sent) = match self {
            Event::Write { offset, value } => (bench.write(*offset, *value), 0),
            Event::Grant { address } => (bench.grant(memory, *address), 0),
            Event::Frame { bytes } => (bench.receive(memory, bytes), 0),
            Event::Send => bench.send(memory, output),
        };
        Answer { number, sent }
    }
}
