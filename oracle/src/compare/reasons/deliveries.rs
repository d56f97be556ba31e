//! The frames that a line delivers, with all that their packet status words go by.

use crate::compare::came::Came;
use crate::console::{self, Call, Console};
use crate::device::DESCRIPTOR_SIZE;
use crate::numbers::DONE;
use crate::taken::Taken;
use std::ops::Range;

/// Where a descriptor has its start address and its packet status.
const START: usize = 4;
const STATUS: usize = 12;

#[derive(Clone, Debug, PartialEq, Eq)]
pub struct Delivery {
    pub came: Came,
    pub taken: Taken,
    pub destination: [u8; 6],
    pub station: [u8; 6],
    pub length: u32,
    /// Where the memory has the frame, and the packet status word of its descriptor.
    pub frame: Range<usize>,
    pub status: usize,
    /// That word before the delivery and behind it.
    pub before: u32,
    pub word: u32,
}

/// What a line will deliver on the console as it stands: its frames are received one by one, on a
/// copy, which shows where each of a burst comes to lie.
pub fn of(line: &[u8], console: &Console) -> Vec<Delivery> {
    let bench = &console.bench;
    let brings_frames = line.starts_with(b"frame ") || line.starts_with(b"burst ");
    // Neither a bench that does not receive nor memory of another length takes any.
    if !brings_frames || !bench.receiver.running || !bench.window.is_lent(console.lent()) {
        return Vec::new();
    }
    match console::call(line) {
        Some(Call::Frame { bytes }) => received(console, Came::Alone, [&bytes[..]]),
        Some(Call::Burst(burst)) => received(console, Came::InABurst, burst.frames().flatten()),
        _ => Vec::new(),
    }
}

fn received<'line>(
    console: &Console,
    came: Came,
    frames: impl IntoIterator<Item = &'line [u8]>,
) -> Vec<Delivery> {
    let mut bench = console.bench.clone();
    let mut memory = console.lent().to_vec();
    // No frame changes the filter registers.
    let filter = bench.filter();
    let mut deliveries = Vec::new();
    for bytes in frames {
        let place = bench.receiver.place;
        let descriptor = bench.window.places(place, DESCRIPTOR_SIZE);
        let words = descriptor.map(|places| {
            let status = places.start + STATUS;
            let start = word(&memory, places.start + START);
            (status, start, word(&memory, status))
        });
        if bench.receive(&mut memory, bytes) != DONE {
            continue;
        }
        let (status, start, before) = words.expect("a delivery has a descriptor in the window");
        let frame = bench.window.places(start, bytes.len() as u64);
        deliveries.push(Delivery {
            came,
            taken: Taken::of(bytes, &filter).expect("a delivery was taken"),
            destination: destination(bytes),
            station: filter.station(),
            length: bytes.len() as u32,
            frame: frame.expect("a delivery has its bytes in the window"),
            status,
            before,
            word: word(&memory, status),
        });
    }
    deliveries
}

fn destination(frame: &[u8]) -> [u8; 6] {
    *frame.first_chunk().expect("a delivery has a destination")
}

/// The word at a place of the memory.
pub fn word(memory: &[u8], place: usize) -> u32 {
    let bytes = &memory[place..place + 4];
    u32::from_le_bytes([bytes[0], bytes[1], bytes[2], bytes[3]])
}
