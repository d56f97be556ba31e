//! Counts the deliveries by why their frames were taken, and those whose packet status word a later
//! line shows before something else is written there: a wrong bit in any of them would be seen.

mod deliveries;
mod slips;
#[cfg(test)]
mod tests;

use super::came::Came;
use crate::console::{self, Call, Console};
use crate::device::VALID;
use crate::taken::Taken;
use crate::tally::Tally;
use deliveries::Delivery;
use std::collections::BTreeMap;
use std::ops::Range;

/// How often each kind must be delivered, and its status word seen, in a whole comparison.
const DELIVERED_LEAST: usize = 2_000;
const SEEN_LEAST: usize = 2_000;
/// And how often it must come each way.
const CAME_LEAST: usize = 500;
/// How often a frame must be shown whose status word has one of the bits.
const SHOWN_LEAST: usize = 200;

const STATUS_SIZE: usize = 4;

fn delivered_name(taken: Taken) -> String {
    format!("delivered: {taken}")
}

fn came_name(taken: Taken, came: Came) -> String {
    format!("delivered {came}: {taken}")
}

fn seen_name(taken: Taken) -> String {
    format!("status word seen: {taken}")
}

/// The frames that are shown with a bit, by it.
const SHOWN: [(u32, &str); 2] = [
    (0x0800_0000, "frame shown, bit 27 set"),
    (0x1000_0000, "frame shown, bit 28 set"),
];

/// All names with their least numbers, but those of the slips.
fn names() -> impl Iterator<Item = (String, usize)> {
    let by_taken = Taken::ALL.into_iter().flat_map(|taken| {
        let both = Came::BOTH.map(|came| (came_name(taken, came), CAME_LEAST));
        [
            (delivered_name(taken), DELIVERED_LEAST),
            (seen_name(taken), SEEN_LEAST),
        ]
        .into_iter()
        .chain(both)
    });
    by_taken.chain(SHOWN.map(|(_, name)| (name.to_string(), SHOWN_LEAST)))
}

pub fn expect(tally: &mut Tally) {
    names().for_each(|(name, _)| tally.expect(name));
    slips::expect(tally);
}

/// How often a kind must be met in a whole comparison, if deliveries ask for more than others do.
pub fn least(kind: &str) -> Option<usize> {
    let found = names().find(|(name, _)| name == kind);
    found.map(|(_, least)| least)
}

/// A status word as a delivery left it, or a grant behind that.
struct Left {
    delivery: Delivery,
    granted: bool,
    seen: bool,
}

impl Left {
    /// What the word must be.
    fn word(&self) -> u32 {
        match self.granted {
            true => VALID,
            false => self.delivery.word,
        }
    }
}

/// Follows the status words through a script.
#[derive(Default)]
pub struct Watch {
    /// What the line that is about to be taken delivers.
    coming: Vec<Delivery>,
    /// By their place in the memory.
    left: BTreeMap<usize, Left>,
}

impl Watch {
    /// Looks at a line before the console takes it.
    pub fn before(&mut self, line: &[u8], console: &Console) {
        self.coming = deliveries::of(line, console);
    }

    /// Counts what a line and its answer say. The console has taken the line.
    pub fn count(&mut self, tally: &mut Tally, line: &[u8], answer: &str, console: &Console) {
        let mut words = answer.split(' ');
        let call = words.next().unwrap_or_default();
        let result = words.next().unwrap_or_default();
        match (call, result) {
            ("new", _) => self.left.clear(),
            // A burst that was refused has delivered nothing.
            ("frame" | "burst", "0") => {
                for delivery in std::mem::take(&mut self.coming) {
                    self.delivered(tally, delivery);
                }
            }
            ("check", _) => self.seen(tally, 0..console.bench.window.length as usize, console),
            ("poke" | "peek", _) | ("grant" | "show", "0") => self.reached(tally, line, console),
            _ => {}
        }
    }

    fn delivered(&mut self, tally: &mut Tally, delivery: Delivery) {
        tally.met(delivered_name(delivery.taken));
        tally.met(came_name(delivery.taken, delivery.came));
        self.written(&delivery.frame);
        let left = Left {
            delivery,
            granted: false,
            seen: false,
        };
        self.left.insert(left.delivery.status, left);
    }

    /// A line that reaches some bytes of the window by their address.
    fn reached(&mut self, tally: &mut Tally, line: &[u8], console: &Console) {
        let places =
            |address: u32, length: usize| console.bench.window.places(address, length as u64);
        let status = |address: u32| places(address, 16).map(|places| places.start + 12);
        match console::call(line) {
            Some(Call::Poke { address, bytes }) => {
                if let Some(places) = places(address, bytes.len()) {
                    self.written(&places);
                }
            }
            Some(Call::Peek { address, length }) => {
                if let Some(places) = places(address, length as usize) {
                    self.seen(tally, places, console);
                }
            }
            Some(Call::Grant { address }) => {
                if let Some(status) = status(address) {
                    self.granted(status);
                }
            }
            Some(Call::Show { address }) => {
                if let Some(status) = status(address) {
                    self.shown(tally, status);
                }
            }
            _ => {}
        }
    }

    /// What was left there is so no more.
    fn written(&mut self, places: &Range<usize>) {
        let apart = |status: usize| status + STATUS_SIZE <= places.start || places.end <= status;
        self.left.retain(|status, _| apart(*status));
    }

    /// A second grant has no delivery before it: a send may have returned the descriptor.
    fn granted(&mut self, status: usize) {
        match self.left.get_mut(&status) {
            Some(left) if !left.granted => {
                left.granted = true;
                left.seen = false;
            }
            Some(_) => {
                self.left.remove(&status);
            }
            None => {}
        }
    }

    /// The answer depends on every byte of these places, so that it shows all words that lie in them
    /// whole; each counts once.
    fn seen(&mut self, tally: &mut Tally, places: Range<usize>, console: &Console) {
        let memory = &console.memory;
        // A send changes what was granted.
        self.left
            .retain(|status, left| deliveries::word(memory, *status) == left.word());
        for (status, left) in &mut self.left {
            let inside = places.start <= *status && status + STATUS_SIZE <= places.end;
            if !inside || left.seen {
                continue;
            }
            left.seen = true;
            if left.granted {
                slips::grant_seen(tally, &left.delivery);
            } else {
                tally.met(seen_name(left.delivery.taken));
                slips::delivery_seen(tally, &left.delivery);
            }
        }
    }

    /// A reading that is answered 0 is of a returned descriptor, as the delivery left it.
    fn shown(&self, tally: &mut Tally, status: usize) {
        let Some(left) = self.left.get(&status) else {
            return;
        };
        for (bit, name) in SHOWN {
            if left.delivery.word & bit != 0 {
                tally.met(name);
            }
        }
    }
}
