//! The two vectored interrupt controllers of RM0006 chapter 4, VIC0 and VIC1. They stand beside the
//! Ethernet controller and know nothing of it but that one of their inputs is its line.

mod access;
mod answer;
mod controller;
mod inputs;
mod rank;
pub mod registers;
mod service;
#[cfg(test)]
mod tests;

pub use answer::Request;
pub use controller::Controller;
pub use inputs::{with_ethernet, Levels, ETHERNET};
pub use rank::{Place, Rank};

/// Inputs of a controller, and its slots: as many vector addresses and vector controls.
pub const INPUTS: usize = 16;

/// Both controllers, and the ranks in service in the order in which they were taken. The levels of
/// the inputs are no part of them: they are given at each call that goes by them.
#[derive(Clone, Debug, Default, PartialEq, Eq)]
pub struct Pair {
    pub controllers: [Controller; 2],
    pub service: Vec<Rank>,
}
