//! Faults of a block's own fields and of its zero fill.

use crate::random::Random;
use crate::tapes::Tape;
use crate::trace::block;

pub const FILLS: &[&str] = &["first", "last", "any"];

/// A byte of the zero fill; only a part-filled last block has one.
pub fn fill(tape: &mut Tape, place: usize, random: &mut Random) -> Option<&'static str> {
    let used = tape.used_by_now(place);
    let last = block::DATA_MOST - 1;
    if used > last {
        return None;
    }
    let (byte, name) = match random.below(3) {
        0 => (used, "first"),
        1 => (last, "last"),
        _ => (random.between(used, last), "any"),
    };
    tape.block(place)[block::DATA][byte] = random.between(1, 255) as u8;
    Some(name)
}

pub const USED: &[&str] = &[
    "0",
    "505",
    "65535",
    "over 504",
    "one bit or more over",
    "503 not the last",
    "1 not the last",
    "part-filled not the last",
    "0 or over 504",
];

pub fn used(tape: &mut Tape, place: usize, random: &mut Random) -> &'static str {
    let last = place + 1 == tape.blocks();
    let (used, name) = match random.below(8) {
        0 => (0, "0"),
        1 => (505, "505"),
        2 => (65_535, "65535"),
        3 => (random.between(505, 65_535), "over 504"),
        4 => (504 + 256 * random.between(1, 254), "one bit or more over"),
        5 if !last => (503, "503 not the last"),
        6 if !last => (1, "1 not the last"),
        _ if !last => (random.between(1, 503), "part-filled not the last"),
        _ => (random.pick(&[0, 505, 508, 512]), "0 or over 504"),
    };
    tape.put_used(place, used as u16);
    // With a right zero fill or with what was there.
    if used < block::DATA_MOST && random.once_in(2) {
        tape.block(place)[block::DATA][used..].fill(0);
    }
    name
}

pub const NUMBERS: &[&str] = &[
    "one more",
    "one less",
    "one bit off",
    "other byte order",
    "256 more",
    "any",
];

pub fn number(tape: &mut Tape, place: usize, random: &mut Random) -> &'static str {
    let right = place as u16;
    let (number, name) = match random.below(6) {
        0 => (right.wrapping_add(1), "one more"),
        1 => (right.wrapping_sub(1), "one less"),
        2 => (right ^ 1 << random.below(16), "one bit off"),
        3 => (right.swap_bytes(), "other byte order"),
        4 => (right.wrapping_add(256), "256 more"),
        _ => (random.word() as u16, "any"),
    };
    // Some of these are right for some blocks.
    let number = if number == right { !right } else { number };
    tape.put_number(place, number);
    name
}

pub const CHECKS: &[&str] = &[
    "one more",
    "one less",
    "65521 more",
    "65536 more",
    "upper bytes",
    "one bit off",
    "other byte order",
    "position for weight",
    "modulo 65536",
    "not reduced",
    "of the data",
    "any",
    "without weights",
];

pub fn check(tape: &mut Tape, place: usize, random: &mut Random) -> &'static str {
    let block = tape.block(place);
    let right = block::check(block);
    let bytes = &block[..block::CHECK.start];
    let weighted = |first: u64, bytes: &[u8]| -> u64 {
        (first..)
            .zip(bytes)
            .map(|(weight, byte)| weight * u64::from(*byte))
            .sum()
    };
    let sum = weighted(1, bytes);
    let (wrong, name) = match random.below(13) {
        0 => (right + 1, "one more"),
        1 => (right.wrapping_sub(1), "one less"),
        2 => (right + block::MODULUS, "65521 more"),
        3 => (right + 65_536, "65536 more"),
        4 => (right + (random.draw() << 16), "upper bytes"),
        5 => (right ^ 1 << random.below(32), "one bit off"),
        6 => (u64::from((right as u16).swap_bytes()), "other byte order"),
        7 => (weighted(0, bytes) % block::MODULUS, "position for weight"),
        8 => (sum % 65_536, "modulo 65536"),
        9 => (sum, "not reduced"),
        10 => (weighted(1, &bytes[4..]) % block::MODULUS, "of the data"),
        11 => (random.draw(), "any"),
        _ => (
            bytes.iter().map(|byte| u64::from(*byte)).sum(),
            "without weights",
        ),
    };
    // Some of these are right for some blocks.
    let wrong = match wrong as u32 {
        wrong if u64::from(wrong) == right => !wrong,
        wrong => wrong,
    };
    block[block::CHECK].copy_from_slice(&wrong.to_le_bytes());
    name
}
