//! Captures and lists of frames for the comparisons: good ones, ones with a fault or two, damaged ones;
//! what is lent to export and import them; and what wrong readings would make of them.

mod damage;
mod export_slips;
mod fields;
mod frames;
mod good;
mod import_slips;
mod kinds;
mod lending;
mod lists;
mod record_faults;
mod refusals;
#[cfg(test)]
mod tests;

pub use export_slips::ExportSlip;
pub use fields::{names as field_names, Field, FIELDS};
pub use frames::time;
pub use good::{good, Shape, SHAPES};
pub use import_slips::ImportSlip;
pub use kinds::random;
pub use lending::Rooms;
pub use lists::{FrameList, DAMAGES, FILLINGS};
pub use record_faults::RECORD_FAULTS;
pub use refusals::{of_export, of_import};

/// A capture in the making, and what is known of it.
#[derive(Clone)]
pub struct Film {
    /// What it is, for the tally.
    pub kind: String,
    pub bytes: Vec<u8>,
    /// Where records start, as long as it is good.
    pub starts: Vec<usize>,
}
