//! One block: "2 bytes of block number from 0, 2 bytes of used length (1 to 504), 504 bytes of event
//! data with unused ones zero, 4 bytes of check, all numbers little-endian".

use std::ops::Range;

/// The bytes of one block.
pub const SIZE: usize = 512;
/// The event data that a block can hold.
pub const DATA_MOST: usize = 504;

/// Where the fields stand.
pub const NUMBER: Range<usize> = 0..2;
pub const USED: Range<usize> = 2..4;
pub const DATA: Range<usize> = 4..508;
pub const CHECK: Range<usize> = 508..512;

/// What the check is taken modulo.
pub const MODULUS: u64 = 65_521;

/// A little-endian number of up to 8 bytes.
pub fn number(bytes: &[u8]) -> u64 {
    bytes
        .iter()
        .rev()
        .fold(0, |sum, byte| sum << 8 | u64::from(*byte))
}

/// "The sum over bytes 0 to 507 of byte times (position plus one), modulo 65,521."
pub fn check(block: &[u8]) -> u64 {
    let sum: u64 = (1..)
        .zip(&block[..CHECK.start])
        .map(|(weight, byte)| weight * u64::from(*byte))
        .sum();
    sum % MODULUS
}

/// Makes the check of a block that of its other bytes.
pub fn put_check(block: &mut [u8]) {
    let check = check(block) as u32;
    block[CHECK].copy_from_slice(&check.to_le_bytes());
}

/// The block of this number with this event data, 1 to 504 bytes.
pub fn made(number: u16, data: &[u8]) -> [u8; SIZE] {
    let mut block = [0; SIZE];
    block[NUMBER].copy_from_slice(&number.to_le_bytes());
    block[USED].copy_from_slice(&(data.len() as u16).to_le_bytes());
    block[DATA][..data.len()].copy_from_slice(data);
    put_check(&mut block);
    block
}

/// The event data cut into blocks, from block 0 on. There are at most 65,536 of them.
pub fn all(data: &[u8]) -> Vec<u8> {
    data.chunks(DATA_MOST)
        .enumerate()
        .flat_map(|(number, data)| {
            let number = u16::try_from(number).expect("a trace has at most 65,536 blocks");
            made(number, data)
        })
        .collect()
}
