//! Receiving by bursts, in the middle of which grants run out, chains end and descriptors fault.

mod chain;
mod ring;

pub use chain::along_a_chain;
pub use ring::on_a_ring;
