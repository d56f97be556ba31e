//! The sound ring.

use super::descriptor::{Descriptor, POLLING, SIZE};
use super::Bench;
use std::ops::Range;

/// The least count that takes every frame.
const COUNT_LEAST: u64 = 1_518;

impl Bench {
    /// Whether `count` descriptors from `first` on make a sound ring.
    pub fn ring(&self, memory: &[u8], count: u32, first: u32) -> bool {
        if !self.window.is_lent(memory) || !(1..=32).contains(&count) || !first.is_multiple_of(4) {
            return false;
        }
        let mut regions = Vec::new();
        let mut address = first;
        for _ in 0..count {
            match self.regions(memory, address) {
                Some((descriptor, buffer, next)) => {
                    regions.extend([descriptor, buffer]);
                    address = next;
                }
                None => return false,
            }
        }
        // A descriptor met twice shares its bytes with itself.
        address == first && apart(regions)
    }

    /// Where a descriptor fit for a ring and its buffer lie, and the next one's address.
    fn regions(&self, memory: &[u8], address: u32) -> Option<(Range<usize>, Range<usize>, u32)> {
        let descriptor = Descriptor::read(&self.window, memory, address)?;
        if !descriptor.next_enable() || descriptor.count() < COUNT_LEAST {
            return None;
        }
        // "A ring is sound only with it in every descriptor."
        if descriptor.next_word() & POLLING == 0 {
            return None;
        }
        Some((
            self.window.places(address, SIZE)?,
            self.window
                .places(descriptor.start()?, descriptor.count())?,
            descriptor.next(),
        ))
    }
}

/// Whether no two regions, none of them empty, share a byte.
fn apart(mut regions: Vec<Range<usize>>) -> bool {
    regions.sort_by_key(|region| region.start);
    regions.windows(2).all(|pair| pair[0].end <= pair[1].start)
}
