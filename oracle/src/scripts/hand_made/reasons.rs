//! The packet status words that deliveries and grants leave, by every reason and on every station.

use super::{frame, LOOK, OWN};
use crate::{check, hex};

const ALL: [u8; 6] = [0xFF; 6];
/// Index 3: bit 3 of the low hash register.
const PAUSE: [u8; 6] = [0x01, 0x80, 0xC2, 0x00, 0x00, 0x01];
const OTHER: [u8; 6] = [2, 0, 0, 0, 0, 2];

const DESTINATIONS: [[u8; 6]; 4] = [OWN, ALL, PAUSE, OTHER];

/// The low and the high register of a station at each of the first three destinations.
const STATIONS: [(&str, &str); 3] = [("2", "100"), ("ffffffff", "ffff"), ("c28001", "100")];

/// Every filter mode with receive-all and without, the group's hash bit set and clear, each station.
fn filters() -> impl Iterator<Item = String> {
    let modes = (0..8_u32).flat_map(|mode| [mode << 17, mode << 17 | 1 << 31]);
    modes.flat_map(|control| {
        STATIONS.into_iter().flat_map(move |(low, high)| {
            ["8", "fffffff7"].map(|table| {
                format!(
                    "write 408 {low}\nwrite 404 {high}\nwrite 410 {table}\nwrite 400 {control:x}\n"
                )
            })
        })
    })
}

/// A frame to each destination, one of 64 and one of 1,518 bytes; the word is looked at behind each
/// grant, each frame and each reading. The firmware's own grant has every bit beside VALID.
pub fn alone() -> String {
    let mut text =
        String::from("new 0 4096\npoke 0 ff4f00002000000001000000\nwrite 1c 1\nwrite 10 5\n");
    for filter in filters() {
        text += &filter;
        for destination in DESTINATIONS {
            for (grant, length) in [("grant 0", 64), ("poke c ffffffff", 64), ("grant 0", 1_518)] {
                let frame = frame(destination, length, 0x6B);
                text += &format!("{grant}\npeek c 4\n{frame}peek c 4\nshow 0\npeek c 4\n");
            }
        }
    }
    text + LOOK
}

/// All destinations in one burst, in both orders, on a ring of eight granted descriptors.
pub fn in_a_burst() -> String {
    let ring = (0..8_u32).flat_map(|place| {
        let next = (16 * ((place + 1) % 8)) | 1;
        [64 | 1 << 14, 0x100 + 64 * place, next, 1 << 16]
    });
    let ring: Vec<u8> = ring.flat_map(u32::to_le_bytes).collect();
    let ring = hex::write(&ring);
    let store: Vec<u8> = DESTINATIONS
        .iter()
        .flat_map(|destination| {
            let mut message = [0x4D; 60];
            message[..6].copy_from_slice(destination);
            check::closed(&message)
        })
        .collect();
    let store = hex::write(&store);
    let pairs = "0 64 64 64 128 64 192 64 192 64 128 64 64 64 0 64";
    let mut text = String::new();
    for filter in filters() {
        text += &format!(
            "new 0 4096\npoke 0 {ring}\n{filter}write 1c 1\nwrite 10 5\n\
             burst 8 {store} {pairs}\npeek 0 128\nshow 0\nshow 10\n{LOOK}"
        );
    }
    text
}
