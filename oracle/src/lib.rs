//! An independent reference for the bench model of the STR91xFA Ethernet controller.
//!
//! Written from the rules and the reference manual alone, by other methods than the model where
//! there is a choice, so that an error shared by both is unlikely.

pub mod address;
pub mod capture;
pub mod check;
pub mod compare;
pub mod console;
pub mod delivered;
pub mod device;
pub mod difference;
pub mod files;
pub mod films;
pub mod frames;
pub mod groups;
pub mod hash;
pub mod hash_vectors;
pub mod hex;
pub mod numbers;
pub mod program;
pub mod programs;
pub mod random;
pub mod reason;
pub mod recording;
pub mod runs;
pub mod scripts;
pub mod side;
pub mod start;
pub mod tables;
pub mod taken;
pub mod tally;
pub mod tapes;
pub mod telling;
pub mod trace;
pub mod ungranted;
pub mod verdict;
pub mod vic;
