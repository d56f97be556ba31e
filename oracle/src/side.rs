//! The two engines, as scripts and tallies speak of them.

use crate::device::{Bench, Engine};
use std::fmt;

#[derive(Clone, Copy, Debug, PartialEq, Eq)]
pub enum Side {
    Receiving,
    Sending,
}

impl Side {
    pub const BOTH: [Side; 2] = [Side::Receiving, Side::Sending];

    /// The offset of its start register.
    pub fn start(self) -> u32 {
        match self {
            Side::Receiving => 0x10,
            Side::Sending => 0x30,
        }
    }

    /// The offset of its next-descriptor register.
    pub fn next(self) -> u32 {
        match self {
            Side::Receiving => 0x1C,
            Side::Sending => 0x3C,
        }
    }

    /// The engine of a bench.
    pub fn of(self, bench: &Bench) -> Engine {
        match self {
            Side::Receiving => bench.receiver,
            Side::Sending => bench.sender,
        }
    }
}

impl fmt::Display for Side {
    fn fmt(&self, out: &mut fmt::Formatter) -> fmt::Result {
        out.write_str(match self {
            Side::Receiving => "receiving",
            Side::Sending => "sending",
        })
    }
}
