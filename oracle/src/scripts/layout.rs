//! Lays out descriptors and buffers in a window.

use super::writer::Writer;
pub use crate::device::{POLLING, VALID};

/// Control word: next-enable, and all bits that the device does not look at.
pub const NEXT_ENABLE: u32 = 1 << 14;
const UNUSED_CONTROL: u32 = !(NEXT_ENABLE | 0xFFF);

/// One descriptor's words and where it stands.
#[derive(Clone, Copy)]
pub struct Place {
    pub address: u32,
    pub control: u32,
    pub start: u32,
    pub next: u32,
    pub status: u32,
}

impl Place {
    pub fn count(&self) -> u32 {
        self.control & 0xFFF
    }

    pub fn bytes(&self) -> Vec<u8> {
        let words = [self.control, self.start, self.next, self.status];
        words.iter().flat_map(|word| word.to_le_bytes()).collect()
    }

    pub fn write(&self, writer: &mut Writer) {
        writer.poke(self.address, &self.bytes());
    }
}

/// A new bench with a sound ring in its window, in ring order, all descriptors returned. Up to 42
/// descriptors fit, of which over 32 make no sound ring but are sound otherwise.
pub fn sound_ring(writer: &mut Writer, count: usize) -> Vec<Place> {
    let mut room = 65_536 - 16 * count;
    let mut counts = Vec::new();
    for left in (1..=count).rev() {
        let wish = writer
            .random
            .pick(&[1_518, 1_518, 1_519, 1_520, 1_520, 1_536, 2_000, 4_095]);
        // Leave at least 1,520 bytes for each that is still to come.
        let size = if wish + 3 + 1_520 * (left - 1) <= room {
            wish
        } else {
            1_518
        };
        room -= size.next_multiple_of(4);
        counts.push(size);
    }
    let slack = match writer.random.below(3) {
        0 => 0,
        1 => room.min(64),
        _ => writer.random.below(room / 4 + 1) * 4,
    };
    writer.new_bench((65_536 - room + slack) as u32);
    let addresses = scattered(writer, &counts, slack);
    let (descriptors, buffers) = addresses.split_at(count);
    let ring: Vec<Place> = (0..count)
        .map(|place| Place {
            address: descriptors[place],
            control: counts[place] as u32 | NEXT_ENABLE | unused(writer, UNUSED_CONTROL),
            start: buffers[place],
            next: descriptors[(place + 1) % count] | POLLING | unused(writer, 2),
            status: unused(writer, !VALID),
        })
        .collect();
    for place in &ring {
        place.write(writer);
        writer.marks.push(place.address);
        if writer.random.once_in(4) {
            writer.marks.push(place.start);
        }
    }
    ring
}

/// Random bits of `mask`, often none.
fn unused(writer: &mut Writer, mask: u32) -> u32 {
    match writer.random.below(3) {
        0 => writer.random.word() & mask,
        _ => 0,
    }
}

/// Addresses of as many descriptors as there are counts, then of their buffers: in random order
/// behind each other, with `slack` bytes spread between them.
fn scattered(writer: &mut Writer, counts: &[usize], slack: usize) -> Vec<u32> {
    let mut sizes = vec![16; counts.len()];
    sizes.extend(counts.iter().map(|count| count.next_multiple_of(4)));
    let mut order: Vec<usize> = (0..sizes.len()).collect();
    for place in (1..order.len()).rev() {
        order.swap(place, writer.random.below(place + 1));
    }
    let mut left = slack;
    let mut address = writer.base();
    let mut addresses = vec![0; sizes.len()];
    for item in order {
        let gap = match writer.random.below(4) {
            0 => writer.random.below(left / 4 + 1) * 4,
            _ => 0,
        };
        left -= gap;
        address = address.wrapping_add(gap as u32);
        addresses[item] = address;
        address = address.wrapping_add(sizes[item] as u32);
    }
    addresses
}
