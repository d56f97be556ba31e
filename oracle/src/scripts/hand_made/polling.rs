//! Polling: every pair of low bits in register and next word, on both engines, where a descriptor is
//! not granted.

use super::{frame, LOOK, OWN};
use crate::side::Side;
use crate::{check, hex};

const GRANTED: u32 = 1 << 16;
const RETURNED: u32 = 0;

/// A window of 4,096 bytes for the station, with a ring of descriptors from 0 on, 64 bytes each from
/// 100 on; of each the low bits of its next word, and its status.
fn window(ring: &[(u32, u32)]) -> String {
    let words = ring.iter().enumerate().flat_map(|(place, (bits, status))| {
        let next = 16 * ((place + 1) % ring.len()) as u32;
        let start = 0x100 + 64 * place as u32;
        [64 | 1 << 14, start, next | bits, *status]
    });
    let table: Vec<u8> = words.flat_map(u32::to_le_bytes).collect();
    let table = hex::write(&table);
    format!("new 0 4096\nwrite 408 2\nwrite 404 100\npoke 0 {table}\n")
}

fn write_next(side: Side, word: u32) -> String {
    format!("write {:x} {word:x}\n", side.next())
}

fn write_start(side: Side, value: u32) -> String {
    format!("write {:x} {value:x}\n", side.start())
}

fn start_by(side: Side, word: u32) -> String {
    write_next(side, word) + &write_start(side, 5)
}

/// A frame to the station, or a send.
fn call(side: Side) -> String {
    match side {
        Side::Receiving => frame(OWN, 64, 0x3C),
        Side::Sending => "send 1518\n".to_string(),
    }
}

/// A call and a look, two calls more, a grant where the engine stands and a call, then a start write
/// with the register as it is and two calls.
fn go_on(side: Side, place: u32) -> String {
    let call = call(side);
    let start = write_start(side, 5);
    format!("{call}{LOOK}{call}{call}grant {place:x}\n{call}{LOOK}{start}{call}{call}{LOOK}")
}

/// A script of each engine and each pair of low bits.
fn each(script: impl Fn(Side, u32) -> String) -> String {
    let cases = Side::BOTH
        .into_iter()
        .flat_map(|side| (0..4).map(move |bits| (side, bits)));
    cases.map(|(side, bits)| script(side, bits)).collect()
}

/// The other level of both low bits.
fn other(bits: u32) -> u32 {
    !bits & 3
}

/// The place of a start: the register's bit alone decides.
pub fn at_a_start() -> String {
    each(|side, bits| {
        let ring = [(other(bits), RETURNED), (other(bits), RETURNED)];
        window(&ring) + &start_by(side, bits) + &go_on(side, 0)
    })
}

/// The place of a move: the bit of the next word that led there, neither the register's nor that of
/// the descriptor which stands there.
pub fn at_a_move() -> String {
    each(|side, bits| {
        let ring = [(bits, GRANTED), (other(bits), RETURNED)];
        let start = start_by(side, other(bits));
        window(&ring) + &start + &call(side) + &go_on(side, 16)
    })
}

/// The word that led to a place, and the one there, changed behind the move.
pub fn words_changed_later() -> String {
    each(|side, bits| {
        let ring = [(bits, GRANTED), (bits, RETURNED)];
        let start = window(&ring) + &start_by(side, bits) + &call(side);
        let leading = format!("poke 8 {:02x}\n", 16 | other(bits));
        let own = format!("poke 18 {:02x}\n", other(bits));
        [
            start.clone() + &leading + &go_on(side, 16),
            start.clone() + &own + &go_on(side, 16),
            start + &leading + &own + &go_on(side, 16),
        ]
        .concat()
    })
}

/// The word that leads to a place, changed before the move.
pub fn words_changed_before() -> String {
    each(|side, bits| {
        let ring = [(other(bits), GRANTED), (other(bits), RETURNED)];
        let change = format!("poke 8 {:02x}\n", 16 | bits);
        window(&ring) + &start_by(side, other(bits)) + &change + &call(side) + &go_on(side, 16)
    })
}

/// Start writes to a running engine, whose register has the other bit.
pub fn started_while_running() -> String {
    each(|side, bits| {
        let ring = [(bits, GRANTED), (bits, RETURNED)];
        let start = window(&ring) + &start_by(side, other(bits)) + &call(side);
        [5, 1, 0x00FF_FF05, 0x00FF_FF01]
            .map(|value| {
                let refused = write_next(side, 16 | other(bits));
                start.clone() + &refused + &write_start(side, value) + &go_on(side, 16)
            })
            .concat()
    })
}

/// The register written behind a stop, by DMA enable cleared or by number 8, and the start behind it.
pub fn register_behind_a_stop() -> String {
    each(|side, bits| {
        let ring = [(bits, RETURNED), (bits, RETURNED)];
        let start = window(&ring) + &start_by(side, bits);
        let write = write_next(side, 16 | other(bits));
        let call = call(side);
        let stops = [write_start(side, 0), write_start(side, 4), call.clone()];
        stops
            .map(|stop| {
                // DMA enable alone does not start it.
                let enable = write_start(side, 1);
                format!("{start}{stop}{write}{LOOK}{call}{enable}{call}{LOOK}") + &go_on(side, 16)
            })
            .concat()
    })
}

/// Both engines at one descriptor with their own bits, in turns.
pub fn both_engines() -> String {
    each(|side, bits| {
        let ring = [(0, RETURNED)];
        let [first, second] = match side {
            Side::Receiving => Side::BOTH,
            Side::Sending => [Side::Sending, Side::Receiving],
        };
        let calls = (call(first) + &call(second) + LOOK).repeat(3);
        let start = start_by(first, bits) + &start_by(second, other(bits));
        format!("{}{start}{calls}grant 0\n{calls}", window(&ring))
    })
}

/// Several frames or sends in one line, to the end of the grants and past it.
pub fn several_at_once() -> String {
    each(|side, bits| {
        let ring = [(other(bits), GRANTED), (bits, GRANTED), (bits, RETURNED)];
        let mut text = window(&ring) + &start_by(side, other(bits));
        for count in [1, 6, 2, 1] {
            let line = match side {
                Side::Receiving => {
                    let mut message = [0x77; 60];
                    message[..6].copy_from_slice(&OWN);
                    let store = hex::write(&check::closed(&message));
                    format!("burst {count} {store}{}\n", " 0 64".repeat(count))
                }
                Side::Sending => format!("run {count} 9000\n"),
            };
            text += &format!("{line}{LOOK}");
        }
        text + "grant 20\n" + &go_on(side, 0)
    })
}

/// After reset the registers have no polling, whatever stood there before.
pub fn after_reset() -> String {
    let mut text = String::new();
    for side in Side::BOTH {
        for new in ["new 0 64", "new 2 64"] {
            let before = window(&[(1, RETURNED)]) + &start_by(side, 1) + &call(side);
            let call = match side {
                Side::Receiving => frame([0xFF; 6], 64, 1),
                Side::Sending => "send 1518\n".to_string(),
            };
            let start = write_start(side, 5);
            text += &format!("{before}{new}\n{LOOK}{start}{call}{LOOK}{call}{LOOK}");
        }
    }
    text
}

/// A ring of three, sound exactly if bit 0 is set in every next word; and one of one.
pub fn rings() -> String {
    let mut text = String::from("new 0 4608\n");
    for place in 0..3_u32 {
        let words = [1_520 | 1 << 14, 48 + 1_520 * place, 0, 0];
        let bytes: Vec<u8> = words.into_iter().flat_map(u32::to_le_bytes).collect();
        text += &format!("poke {:x} {}\n", 16 * place, hex::write(&bytes));
    }
    for mixed in 0..1 << 6 {
        for place in 0..3_u32 {
            let bits = mixed >> (2 * place) & 3;
            let next = (16 * ((place + 1) % 3)) | bits;
            text += &format!("poke {:x} {next:02x}\n", 16 * place + 8);
        }
        text += "ring 3 0\nring 3 10\nring 3 20\n";
    }
    for bits in 0..4 {
        text += &format!("poke 8 {bits:02x}\nring 1 0\n");
    }
    text
}
