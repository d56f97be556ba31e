//! The hash registers, and group frames that they take or turn away.

use super::{frame, LOOK, RECEIVING};
use crate::hash_vectors::VECTORS;
use crate::{check, hex};

/// The receiver of a descriptor that takes all and goes back to itself.
const BENCH: &str = "new 0 4096\npoke 0 ff4f00002000000000000000\n";

/// MAC control in the mode of perfect address and multicast hash.
const HASH: &str = "write 400 20000\n";

/// Both hash registers of a table, the high one the upper half.
fn table(bits: u64) -> String {
    format!(
        "write 40c {:x}\nwrite 410 {:x}\n",
        (bits >> 32) as u32,
        bits as u32
    )
}

/// Every bit of both registers by itself, and the offsets beside them, which are not modelled. A
/// new bench has forgotten them.
pub fn registers() -> String {
    let mut text = format!(
        "read 40c\nread 410\n{}read 40c\nread 410\n",
        table(u64::MAX)
    );
    text += &format!("new 0 64\n{LOOK}{}{LOOK}", table(0x0123_4567_89AB_CDEF));
    for bit in 0..64 {
        for bits in [1 << bit, !(1 << bit)] {
            text += &table(bits);
            text += "read 40c\nread 410\n";
        }
    }
    for offset in (0x409..0x418_u32).chain([0x80C, 0x810, 0x440C, 0x8000_0410]) {
        text += &format!("write {offset:x} 5a5aa5a5\nread {offset:x}\n{LOOK}");
    }
    // Running engines do not hold them up, and a window not allowed resets them too.
    text += &format!("write 10 5\nwrite 30 5\n{}{LOOK}", table(1));
    text + "new 2 64\nread 40c\nread 410\nwrite 40c 7\nwrite 410 9\nread 40c\nread 410\n"
}

/// Each vector with each table of one bit: one of them takes it, broadcast all.
pub fn one_bit_tables() -> String {
    let mut text = format!("{BENCH}{HASH}{RECEIVING}");
    for (destination, ..) in VECTORS {
        let frame = frame(destination, 64, 0x5A);
        for bit in 0..64 {
            text += &format!("{}grant 0\n{frame}", table(1 << bit));
        }
        text += LOOK;
    }
    text
}

/// Every filter mode, with receive-all and without, where the table has the group's bit and where it
/// has all others.
pub fn filter_modes() -> String {
    let mut text = format!("{BENCH}{RECEIVING}");
    for (destination, _, index) in VECTORS {
        let frame = frame(destination, 64, 0xA5);
        for mode in 0..8_u32 {
            for receive_all in [0, 1_u32 << 31] {
                for bits in [0, u64::MAX, 1 << index, !(1 << index)] {
                    let control = mode << 17 | receive_all;
                    text += &format!("write 400 {control:x}\n{}grant 0\n{frame}", table(bits));
                }
            }
        }
        text += LOOK;
    }
    // Nothing granted: taken is lost, turned away is not.
    for (destination, _, index) in VECTORS {
        for bits in [1 << index, !(1 << index)] {
            let frame = frame(destination, 64, 1);
            text += &format!("{BENCH}{HASH}{RECEIVING}{}{frame}{LOOK}", table(bits));
        }
    }
    text
}

/// All vectors in one burst, twice, with the bits of some of them.
pub fn in_a_burst() -> String {
    let store: Vec<u8> = VECTORS
        .iter()
        .flat_map(|(destination, ..)| {
            let mut message = [0x33; 60];
            message[..6].copy_from_slice(destination);
            check::closed(&message)
        })
        .collect();
    let store = hex::write(&store);
    let pairs: String = (0..2 * VECTORS.len())
        .map(|place| format!(" {} 64", place % VECTORS.len() * 64))
        .collect();
    let mut text = String::new();
    for chosen in 0..1_u32 << VECTORS.len() {
        let bits = VECTORS.iter().enumerate().fold(0, |bits, (place, vector)| {
            bits | u64::from(chosen >> place & 1) << vector.2
        });
        // Three descriptors with polling, of which two are granted.
        text += &format!(
            "new 0 4096\npoke 0 40400000000100001100000000000100\n\
             poke 10 40400000400100002100000000000100\npoke 20 40400000800100000100000000000000\n\
             {HASH}{}{RECEIVING}burst 12 {store}{pairs}\n{LOOK}peek 0 512\n",
            table(bits)
        );
    }
    text
}
