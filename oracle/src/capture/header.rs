//! The front of a capture: "24-byte header, little-endian, magic a1b2c3d4 hex, version 2.4, zone and
//! accuracy 0, snap length 65,535 (these three not read on import), link type 1".

use crate::numbers::{HEADER_CUT, HEADER_LINK, HEADER_MAGIC, HEADER_VERSION};
use crate::trace::block::number;
use std::ops::Range;

/// The header's bytes.
pub const SIZE: usize = 24;

/// Where the fields stand.
pub const MAGIC: Range<usize> = 0..4;
pub const MAJOR: Range<usize> = 4..6;
pub const MINOR: Range<usize> = 6..8;
pub const ZONE: Range<usize> = 8..12;
pub const ACCURACY: Range<usize> = 12..16;
pub const SNAP: Range<usize> = 16..20;
pub const LINK: Range<usize> = 20..24;

/// The one header of a file that is made.
pub fn made() -> [u8; SIZE] {
    let mut header = [0; SIZE];
    header[MAGIC].copy_from_slice(&0xA1B2_C3D4_u32.to_le_bytes());
    header[MAJOR].copy_from_slice(&2_u16.to_le_bytes());
    header[MINOR].copy_from_slice(&4_u16.to_le_bytes());
    header[SNAP].copy_from_slice(&65_535_u32.to_le_bytes());
    header[LINK].copy_from_slice(&1_u32.to_le_bytes());
    header
}

/// The records behind the header of a file, or why it is refused: "a cut header, other magics,
/// versions, link types".
pub fn behind(file: &[u8]) -> Result<&[u8], u32> {
    let (header, records) = file.split_at_checked(SIZE).ok_or(HEADER_CUT)?;
    if number(&header[MAGIC]) != 0xA1B2_C3D4 {
        return Err(HEADER_MAGIC);
    }
    if (number(&header[MAJOR]), number(&header[MINOR])) != (2, 4) {
        return Err(HEADER_VERSION);
    }
    if number(&header[LINK]) != 1 {
        return Err(HEADER_LINK);
    }
    Ok(records)
}
