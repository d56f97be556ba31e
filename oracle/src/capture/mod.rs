//! Captures: "Export delivered and sent frames as a classic pcap file"; "import the same profile into
//! frame events, times beside them".

mod export;
pub mod header;
mod import;
pub mod list;
pub mod record;
#[cfg(test)]
mod tests;

pub use export::{export, file, first_wrong, Exported};
pub use import::{event, import, records, Imported};
pub use record::Record;

/// "Seconds and microseconds come from the caller": any two numbers of 32 bits.
#[derive(Clone, Copy, Debug, PartialEq, Eq)]
pub struct Time {
    pub seconds: u32,
    pub microseconds: u32,
}

impl Time {
    /// The bytes of a time.
    pub const SIZE: usize = 8;

    pub fn bytes(&self) -> [u8; Time::SIZE] {
        let [a, b, c, d] = self.seconds.to_le_bytes();
        let [e, f, g, h] = self.microseconds.to_le_bytes();
        [a, b, c, d, e, f, g, h]
    }
}

/// A whole frame, from destination address to check sequence, with its time.
#[derive(Clone, Debug, PartialEq, Eq)]
pub struct Timed {
    pub time: Time,
    pub frame: Vec<u8>,
}

/// The little-endian number of four bytes that stands there.
fn word(bytes: &[u8], place: usize) -> u32 {
    crate::trace::block::number(&bytes[place..place + 4]) as u32
}
