//! Traces for the comparisons: good ones, ones with a fault or two, damaged ones; what is lent to
//! read and replay them; and event lists to be written.

mod cuts;
mod damage;
mod events;
mod faults;
mod features;
mod good;
mod kinds;
mod lending;
mod lists;
mod memories;
mod pairs;
#[cfg(test)]
mod tests;
mod traffic;

pub use cuts::{cut_events, cut_headers};
pub use faults::{names as fault_names, Fault, FAULTS};
pub use features::{features, FEATURES};
pub use good::{good, long_frames, Shape, SHAPES};
pub use kinds::{random, KINDS};
pub use lending::{room, Lent};
pub use lists::{List, DAMAGES};
pub use memories::{memory, MEMORIES};
pub use pairs::all as pairs_of_faults;
pub use traffic::traffic;

use crate::trace::{block, starts, Event, Header};

/// A trace in the making, and what is known of it.
#[derive(Clone)]
pub struct Tape {
    /// What it is, for the tally.
    pub kind: String,
    pub bytes: Vec<u8>,
    /// The window's bytes at the start, for a replay.
    pub image: Vec<u8>,
    /// Where events start in the event data, the header counted.
    starts: Vec<usize>,
    /// How long the event data is.
    data: usize,
}

impl Tape {
    /// The good trace of a window and its events.
    pub fn new(kind: &str, header: Header, image: Vec<u8>, events: &[Event]) -> Tape {
        let list = Event::list(events);
        let starts = starts(&list).expect("the bytes of events are of their form");
        let data = [header.bytes(), list].concat();
        Tape {
            kind: kind.to_string(),
            bytes: block::all(&data),
            image,
            starts: starts.iter().map(|start| start + Header::SIZE).collect(),
            data: data.len(),
        }
    }

    /// How many whole blocks there are.
    pub fn blocks(&self) -> usize {
        self.bytes.len() / block::SIZE
    }

    pub fn block(&mut self, place: usize) -> &mut [u8] {
        &mut self.bytes[block::SIZE * place..block::SIZE * (place + 1)]
    }

    /// Makes a block's check right again.
    fn recheck(&mut self, place: usize) {
        block::put_check(self.block(place));
    }

    /// Makes the checks of all whole blocks right again.
    fn recheck_all(&mut self) {
        for place in 0..self.blocks() {
            self.recheck(place);
        }
    }

    fn put_number(&mut self, place: usize, number: u16) {
        self.block(place)[block::NUMBER].copy_from_slice(&number.to_le_bytes());
    }

    fn put_used(&mut self, place: usize, used: u16) {
        self.block(place)[block::USED].copy_from_slice(&used.to_le_bytes());
    }

    /// How much data the good trace has in a block.
    fn used(&self, place: usize) -> usize {
        let before = block::DATA_MOST * place;
        self.data.saturating_sub(before).min(block::DATA_MOST)
    }

    /// How much data a block says it has by now: a fault that was put before may have changed it.
    fn used_by_now(&self, place: usize) -> usize {
        let block = &self.bytes[block::SIZE * place..block::SIZE * (place + 1)];
        block::number(&block[block::USED]) as usize
    }

    /// One byte of the event data.
    fn data_byte(&mut self, place: usize) -> &mut u8 {
        let data = place % block::DATA_MOST;
        &mut self.block(place / block::DATA_MOST)[block::DATA][data]
    }

    /// The events that start in a block, by their place in its data.
    fn starts_in(&self, place: usize) -> Vec<usize> {
        let first = block::DATA_MOST * place;
        let inside = first..first + block::DATA_MOST;
        self.starts
            .iter()
            .filter(|start| inside.contains(start))
            .map(|start| start - first)
            .collect()
    }
}
