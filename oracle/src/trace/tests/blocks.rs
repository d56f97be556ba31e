//! The bytes of a block.

use crate::trace::block::{all, check, made};

#[test]
fn fields_are_little_endian_and_the_rest_is_zero() {
    let block = made(0x0201, &[7, 8]);
    assert_eq!(block[..6], [0x01, 0x02, 2, 0, 7, 8]);
    // 1*1 + 2*2 + 2*3 + 7*5 + 8*6 = 94.
    assert_eq!(block[508..], [94, 0, 0, 0]);
    assert!(block[6..508].iter().all(|byte| *byte == 0));
}

#[test]
fn the_check_by_hand() {
    assert_eq!(check(&[0; 512]), 0);
    // 255 times the sum of 1 to 508, which is 129,286; 32,967,930 = 503 * 65,521 + 10,867.
    assert_eq!(check(&[255; 512]), 10_867);
    let mut block = [0; 512];
    block[507] = 129;
    // 129 * 508 = 65,532.
    assert_eq!(check(&block), 11);
    // The check's own bytes have no weight.
    block[508..].fill(9);
    assert_eq!(check(&block), 11);
}

#[test]
fn data_goes_on_in_the_next_block() {
    assert!(all(&[]).is_empty());
    for (length, blocks, used) in [(1, 1, 1), (504, 1, 504), (505, 2, 1), (1_008, 2, 504)] {
        let trace = all(&vec![3; length]);
        assert_eq!(trace.len(), 512 * blocks);
        let last = &trace[512 * (blocks - 1)..];
        assert_eq!(last[0] as usize, blocks - 1);
        assert_eq!(u16::from_le_bytes([last[2], last[3]]), used);
    }
}
