//! Published CRC-32 vectors, held against the model's C function.

use crate::compare::Comparison;
use oracle::check;

/// A message and its published CRC-32.
fn published() -> Vec<(Vec<u8>, u32)> {
    let texts: [(&[u8], u32); 8] = [
        (b"", 0x0000_0000),
        (b"a", 0xE8B7_BE43),
        (b"abc", 0x3524_41C2),
        (b"message digest", 0x2015_9D7F),
        (b"abcdefghijklmnopqrstuvwxyz", 0x4C27_50BD),
        (
            b"ABCDEFGHIJKLMNOPQRSTUVWXYZabcdefghijklmnopqrstuvwxyz0123456789",
            0x1FC2_E6D2,
        ),
        (b"123456789", 0xCBF4_3926),
        (b"The quick brown fox jumps over the lazy dog", 0x414F_A339),
    ];
    let mut vectors: Vec<_> = texts
        .iter()
        .map(|(message, number)| (message.to_vec(), *number))
        .collect();
    vectors.push((vec![0; 32], 0x190A_55AD));
    vectors.push((vec![0xFF; 32], 0xFF6C_AB0B));
    vectors.push(((0..32).collect(), 0x9126_7E8A));
    vectors.push(((0..32).rev().collect(), 0x9AB0_EF72));
    vectors
}

/// Each vector with its check bytes is right, and wrong with any single bit flipped.
pub fn compare(comparison: &mut Comparison) -> Result<(), String> {
    for (message, number) in published() {
        if check::number(&message) != number {
            return Err(format!("the oracle misses the vector {number:08X}"));
        }
        let mut frame = message;
        frame.extend(number.to_le_bytes());
        comparison.tally.met("published vector");
        comparison.frame_check(&frame, 1)?;
        for bit in 0..frame.len() * 8 {
            frame[bit / 8] ^= 1 << (bit % 8);
            comparison
                .tally
                .met("published vector with one bit flipped");
            comparison.frame_check(&frame, 0)?;
            frame[bit / 8] ^= 1 << (bit % 8);
        }
    }
    Ok(())
}
