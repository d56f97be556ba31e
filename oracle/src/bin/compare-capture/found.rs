//! The numbers that a call finds, in the order of the C interface, and their names.

use oracle::difference::BEFORE;

pub const FOUND: [&str; 3] = ["number", "bytes", "frames"];

/// The found list behind a call that finds these numbers: at most as many as there is room for.
pub fn list(numbers: [u64; FOUND.len()], length: usize) -> Vec<u64> {
    let mut list = vec![BEFORE; length];
    for (place, number) in list.iter_mut().zip(numbers) {
        *place = number;
    }
    list
}
