//! Descriptors: four little-endian words in the window.

use super::window::Window;
use std::ops::Range;

/// The bytes of one descriptor.
pub const SIZE: u64 = 16;
/// Where its packet status word stands.
const STATUS: usize = 12;

/// Control word: transfer count and next-enable.
const COUNT: u32 = 0xFFF;
const NEXT_ENABLE: u32 = 1 << 14;
/// Next word and next-descriptor register alike: bit 0, NPOL_EN, enables polling at the place that
/// the word leads to. Bit 1 is reserved.
pub const POLLING: u32 = 1 << 0;
/// Packet status word: the level 1 of VALID gives the descriptor to the DMA in both directions.
pub const VALID: u32 = 1 << 16;
const FRAME_LENGTH: u32 = 0x7FF;

/// An address as the device takes it.
pub fn aligned(word: u32) -> u32 {
    word & !3
}

#[derive(Clone, Copy, Debug)]
pub struct Descriptor {
    control: u32,
    start: u32,
    next: u32,
    status: u32,
}

impl Descriptor {
    /// The descriptor at `address`, or nothing if not all its bytes lie in the window.
    pub fn read(window: &Window, memory: &[u8], address: u32) -> Option<Descriptor> {
        let bytes = &memory[window.places(address, SIZE)?];
        let mut words = bytes.chunks_exact(4).map(|word| {
            word.iter()
                .rev()
                .fold(0, |sum, byte| sum << 8 | u32::from(*byte))
        });
        Some(Descriptor {
            control: words.next()?,
            start: words.next()?,
            next: words.next()?,
            status: words.next()?,
        })
    }

    /// Writes the packet status word of a descriptor that lies in the window.
    pub fn write_status(window: &Window, memory: &mut [u8], address: u32, status: u32) {
        let places = window
            .places(address, SIZE)
            .expect("only a descriptor that was read is written");
        for (place, byte) in memory[places][STATUS..].iter_mut().enumerate() {
            *byte = (status >> (8 * place)) as u8;
        }
    }

    pub fn count(&self) -> u64 {
        u64::from(self.control & COUNT)
    }

    pub fn next_enable(&self) -> bool {
        self.control & NEXT_ENABLE != 0
    }

    pub fn next(&self) -> u32 {
        aligned(self.next)
    }

    /// The next word as it stands, low bits and all: what leads an engine on.
    pub fn next_word(&self) -> u32 {
        self.next
    }

    pub fn granted(&self) -> bool {
        self.status & VALID != 0
    }

    pub fn frame_length(&self) -> usize {
        (self.status & FRAME_LENGTH) as usize
    }

    /// The start address, unless a low bit asks for a mode left out.
    pub fn start(&self) -> Option<u32> {
        (self.start == aligned(self.start)).then_some(self.start)
    }

    /// Where `count` buffer bytes lie, or nothing for a buffer fault: a set low bit, or bytes
    /// outside the window or shared with the descriptor itself, which stands at `own`.
    pub fn buffer(&self, window: &Window, own: u32, count: u64) -> Option<Range<usize>> {
        let start = self.start()?;
        if count == 0 {
            return Some(0..0);
        }
        let bytes = window.places(start, count)?;
        let descriptor = window.places(own, SIZE)?;
        let apart = bytes.end <= descriptor.start || descriptor.end <= bytes.start;
        apart.then_some(bytes)
    }
}
