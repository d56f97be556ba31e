//! Bursts at each limit of their rule.

use super::{LOOK, OWN, RECEIVING};
use crate::{check, hex};

/// A closed frame of 64 bytes to the station, as digits.
fn frame(filler: u8) -> String {
    let mut message = [filler; 60];
    message[..6].copy_from_slice(&OWN);
    hex::write(&check::closed(&message))
}

/// A window with a chain of `count` granted descriptors from 0 on, 64 bytes of buffer each from
/// 1000 on; the last one has no next.
fn chain(count: u32) -> String {
    let words = (0..count).flat_map(|place| {
        let next_enable = if place + 1 < count { 1 << 14 } else { 0 };
        let start = 0x1000 + 64 * place;
        [64 | next_enable, start, 16 * (place + 1), 0x1_0000]
    });
    let table: Vec<u8> = words.flat_map(u32::to_le_bytes).collect();
    format!("new 0 16384\npoke 0 {}\n{RECEIVING}", hex::write(&table))
}

/// Each burst on a bench of its own, so that what one leaves is seen.
pub fn bursts() -> String {
    let store = frame(1) + &frame(2);
    let mut text = String::new();
    for pairs in [
        // In order, out of order, again, and sharing bytes.
        "0 64 64 64",
        "64 64 0 64",
        "0 64 0 64",
        "0 64 0 64 0 64",
        "0 65 1 63 1 64 64 64",
        // Up to the end, past it, and no bytes at, before and behind it.
        "64 64 64 65 65 64 0 64",
        "0 128 0 129 128 0 129 0 127 1 127 2 0 0",
        "129 0 99999999 0 0 99999999 99999999 99999999 65536 64 0 65600",
    ] {
        let count = pairs.split(' ').count() / 2;
        text += &format!("{}burst {count} {store} {pairs}\n{LOOK}", chain(3));
        // Refused, and done after all.
        for room in [count - 1, count + 1, 0, 66, count] {
            text += &format!("burst {room} {store} {pairs}\n{LOOK}");
        }
        // Not running any more, and then lent another length.
        text += &format!("write 10 0\nburst {count} {store} {pairs}\nlend 16380\n");
        text += &format!("burst {count} {store} {pairs}\n{LOOK}");
    }
    text
}

/// Bursts as long as they may be, and longer.
pub fn many() -> String {
    let store = frame(5);
    let mut text = String::new();
    for count in [0, 1, 32, 63, 64, 65, 66, 67] {
        let pairs = " 0 64".repeat(count);
        for room in [0, 1, 63, 64, 65, 66, 67] {
            text += &format!("{}burst {room} {store}{pairs}\n{LOOK}", chain(64));
        }
        text += &format!("{}burst {count} {store}{pairs}\n{LOOK}", chain(64));
        text += &format!("{}burst {count} {store}{pairs} 0\n{LOOK}", chain(2));
        text += &format!("{}burst {count} {store}{pairs}\n{LOOK}", chain(2));
        text += &format!("burst {count} -{}\n{LOOK}", " 0 0".repeat(count));
    }
    text
}

/// A frame that lies over the next descriptor: the next pair of the same burst must see it.
pub fn foreign_descriptor() -> String {
    // The first frame's bytes 16 to 31 become the descriptor at 0x40: count 64, start 0x800, no
    // next, granted or not.
    let mut text = String::new();
    for granted in [0, 1] {
        let mut message = [0; 60];
        message[..6].copy_from_slice(&OWN);
        message[16..32].copy_from_slice(&[64, 0, 0, 0, 0, 8, 0, 0, 0, 0, 0, 0, 0, 0, granted, 0]);
        let store = hex::write(&check::closed(&message)) + &frame(9);
        // What stands there before is another descriptor, granted or not, with polling or without.
        for (before, polling) in [(0, 0), (0, 1), (1, 0), (1, 1)] {
            text += &format!(
                "new 0 4096\npoke 0 ff4f0000300000004{polling}00000000000100\n\
                 poke 40 4040000000090000000000000000{before:02x}00\n\
                 {RECEIVING}burst 3 {store} 0 64 64 64 64 64\n{LOOK}peek 0 128\npeek 800 320\n"
            );
        }
    }
    text
}

/// Before any new bench: not running, and nothing lent.
pub fn before_any_new() -> String {
    let store = frame(7);
    format!(
        "burst 0 -\nburst 1 -\nburst 3 {store} 0 64 0 65 64 0\nlend 4\n\
         burst 3 {store} 0 64 0 65 64 0\nburst 2 {store} 0 64\n{LOOK}"
    )
}
