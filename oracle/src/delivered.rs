//! The frames that a list of events delivers, by why they were taken.

use crate::device::{Bench, DESCRIPTOR_SIZE};
use crate::numbers::DONE;
use crate::taken::Taken;
use crate::trace::{events, Event};
use std::collections::BTreeMap;
use std::ops::Range;

/// A frame that an event delivered.
#[derive(Clone, Copy, Debug, PartialEq, Eq)]
pub struct Delivered {
    pub taken: Taken,
    /// Whether the memory has its packet status word at the end, where a wrong bit would be seen.
    pub left: bool,
}

impl Delivered {
    /// Every frame that a list of events delivers on a new bench of this window, lent this memory and
    /// output.
    pub fn in_events(
        base: u32,
        length: u64,
        list: &[u8],
        mut memory: Vec<u8>,
        mut output: Vec<u8>,
    ) -> Vec<Delivered> {
        let (mut bench, _) = Bench::new(base, length);
        let mut delivered = Vec::new();
        // By the place of a status word: the last delivery there, and what it left.
        let mut words = BTreeMap::new();
        for event in events(list) {
            let place = bench.receiver.place;
            let answer = event.call(&mut bench, &mut memory, &mut output);
            let (Event::Frame { bytes }, DONE) = (&event, answer.number) else {
                continue;
            };
            let status = status(&bench, place);
            let word = memory[status.clone()].to_vec();
            words.insert(status.start, (delivered.len(), word));
            // No frame changes the filter registers, so that they are those it met.
            delivered.push(Delivered {
                taken: Taken::of(bytes, &bench.filter()).expect("a delivery was taken"),
                left: false,
            });
        }
        for (place, (number, word)) in words {
            delivered[number].left = memory[place..].starts_with(&word);
        }
        delivered
    }
}

/// Where the memory has the packet status of the descriptor of a delivery.
fn status(bench: &Bench, place: u32) -> Range<usize> {
    let places = bench.window.places(place, DESCRIPTOR_SIZE);
    let places = places.expect("a delivery has a descriptor in the window");
    places.start + 12..places.end
}

#[cfg(test)]
mod tests {
    use super::*;
    use crate::check;

    const OWN: [u8; 6] = [2, 0, 0, 0, 0, 1];
    /// Index 3: bit 3 of the low register.
    const PAUSE: [u8; 6] = [0x01, 0x80, 0xC2, 0x00, 0x00, 0x01];

    /// A ring of one for 64 bytes at 64, granted anew before each frame.
    #[test]
    fn deliveries_of_a_list_by_the_registers_of_their_time() {
        let write = |offset, value| Event::Write { offset, value };
        let frame = |destination: [u8; 6]| {
            let mut message = [0x11; 60];
            message[..6].copy_from_slice(&destination);
            Event::Frame {
                bytes: check::closed(&message),
            }
        };
        let grant = || Event::Grant { address: 0 };
        let list = [
            write(0x404, 0x100),
            write(0x408, 2),
            write(0x1C, 1),
            write(0x10, 5),
            // Not granted, and so not delivered.
            frame(OWN),
            grant(),
            frame(OWN),
            grant(),
            // Turned away, and the next one not.
            frame(PAUSE),
            frame([0xFF; 6]),
            grant(),
            write(0x400, 5 << 17),
            frame(PAUSE),
            grant(),
            write(0x410, 1 << 3),
            write(0x400, 1 << 17),
            frame(PAUSE),
            grant(),
            write(0x400, 1 << 31),
            frame(PAUSE),
        ];
        let mut memory: Vec<u8> = [64 | 1 << 14, 64, 1, 0_u32]
            .iter()
            .flat_map(|word| word.to_le_bytes())
            .collect();
        memory.resize(128, 0);
        let delivered = |list: &[Event]| -> Vec<(Taken, bool)> {
            let list = Event::list(list);
            Delivered::in_events(0, 128, &list, memory.clone(), vec![0; 1_518])
                .iter()
                .map(|delivered| (delivered.taken, delivered.left))
                .collect()
        };
        // The last one's word stands there at the end, until a grant.
        let wanted = Taken::ALL.map(|taken| (taken, taken == Taken::ReceiveAll));
        assert_eq!(delivered(&list), wanted);
        let granted = [&list[..], &[grant()]].concat();
        assert_eq!(delivered(&granted), Taken::ALL.map(|taken| (taken, false)));
    }
}
