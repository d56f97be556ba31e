//! What the programs that record, replay, export and import write, and which files they make.

#[cfg(test)]
mod capture_tests;
pub mod export_capture;
pub mod import_capture;
pub mod record;
pub mod replay;
#[cfg(test)]
mod tests;
pub mod told;

use crate::files::{Contents, Entry};
use crate::trace::block;

/// "Both have room for traces of 4,096 blocks."
pub const BLOCKS_MOST: usize = 4_096;
pub const ROOM: usize = BLOCKS_MOST * block::SIZE;

/// The most bytes of a capture that is exported or imported.
pub const CAPTURE_ROOM: usize = 2_097_152;

/// What a program writes, and what is in the folder behind it.
pub struct Ended {
    pub output: String,
    pub after: Contents,
}

impl Ended {
    /// "Whatever it says, no file is made or changed unless all goes well."
    fn unchanged(output: String, before: &Contents) -> Ended {
        Ended {
            output,
            after: before.clone(),
        }
    }
}

/// The folder with one file made, or nothing if it cannot be.
fn made(before: &Contents, name: &str, bytes: Vec<u8>) -> Option<Contents> {
    let fits = before.longest.is_none_or(|most| bytes.len() <= most);
    let place = before.room_for(name).filter(|_| fits)?;
    let mut after = before.clone();
    after.put(place, Entry::File(bytes));
    Some(after)
}
