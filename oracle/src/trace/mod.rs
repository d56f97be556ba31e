//! The trace of a recorded day: its form, reading, writing and replay.
//!
//! "A trace is blocks of 512 bytes", and what stands in them is one string of bytes: a header with
//! the window, then the events.

pub mod block;
pub mod event;
mod header;
mod list;
mod reading;
mod replay;
#[cfg(test)]
mod tests;
mod writing;

pub use event::{Answer, Event};
pub use header::Header;
pub use list::{events, starts, whole_events};
pub use reading::{content, read, Content, Fault, Reading};
pub use replay::{replay, Replay};
pub use writing::{write, Writing};

/// "65,536 blocks": as many as a block number of 2 bytes tells apart.
pub const BLOCKS_MOST: usize = 65_536;
