//! The front of block 0: "the base address in 32 bits and the window length less one in 16".

use super::block;
use crate::device::Window;

/// The header's bytes.
const SIZE: usize = 6;

/// The window of a trace, one that is allowed.
#[derive(Clone, Copy, Debug, PartialEq, Eq)]
pub struct Header {
    pub base: u32,
    pub length: u32,
}

impl Header {
    pub const SIZE: usize = SIZE;

    /// The window of this base and length, if it is allowed.
    pub fn allowed(base: u32, length: u32) -> Option<Header> {
        Window::allowed(base.into(), length.into())?;
        Some(Header { base, length })
    }

    /// The header at the front of the event data; nothing if it is cut or its window not allowed.
    pub fn read(data: &[u8]) -> Option<Header> {
        let header = data.first_chunk::<SIZE>()?;
        let (base, less_one) = header.split_at(4);
        Header::allowed(
            block::number(base) as u32,
            block::number(less_one) as u32 + 1,
        )
    }

    pub fn bytes(&self) -> Vec<u8> {
        raw(self.base, (self.length - 1) as u16)
    }
}

/// The bytes of any header, allowed or not.
fn raw(base: u32, less_one: u16) -> Vec<u8> {
    [&base.to_le_bytes()[..], &less_one.to_le_bytes()].concat()
}
