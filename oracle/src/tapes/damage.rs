//! Random damage, without thought for what it does; checks and numbers are made right again or not,
//! so that the later tests are met too.

use super::Tape;
use crate::random::Random;
use crate::trace::{block, event};

pub fn put(tape: &mut Tape, random: &mut Random) {
    for _ in 0..random.between(1, 3) {
        action(tape, random);
    }
    let renumber = random.once_in(3);
    let recheck = renumber || random.once_in(2);
    if renumber {
        for place in 0..tape.blocks() {
            tape.put_number(place, place as u16);
        }
    }
    if recheck {
        tape.recheck_all();
    }
    tape.kind = match (recheck, renumber) {
        (false, _) => "damage as it is",
        (true, false) => "damage with right checks",
        (true, true) => "damage with right checks and numbers",
    }
    .to_string();
}

/// Flips one bit of a frame's length, checks made right: the events behind it are out of step, or
/// it is longer than all that is there.
pub fn frame_length(tape: &mut Tape, random: &mut Random) {
    let starts = tape.starts.clone();
    let frames: Vec<usize> = starts
        .into_iter()
        .filter(|start| *tape.data_byte(*start) == event::FRAME)
        .collect();
    if frames.is_empty() {
        return put(tape, random);
    }
    let bit = length_bit(random);
    let field = random.pick(&frames) + 1;
    *tape.data_byte(field + bit / 8) ^= 1 << (bit % 8);
    tape.recheck_all();
    tape.kind = "frame length changed".to_string();
}

/// A bit of a frame's length, often one that a narrower number has not, or the uppermost.
pub fn length_bit(random: &mut Random) -> usize {
    match random.below(4) {
        0 => 31,
        1 => random.between(16, 31),
        _ => random.below(32),
    }
}

fn action(tape: &mut Tape, random: &mut Random) {
    let length = tape.bytes.len();
    let blocks = tape.blocks();
    if blocks == 0 {
        let bytes = random.bytes(block::SIZE);
        tape.bytes.extend(bytes);
        return;
    }
    let place = random.below(blocks);
    let start = block::SIZE * place;
    match random.below(14) {
        0 | 1 => tape.bytes[random.below(length)] ^= 1 << random.below(8),
        2 => tape.bytes[random.below(length)] = random.byte(),
        // The front of a block has its fields, and block 0 the window.
        3 => tape.bytes[start + random.below(12)] = random.byte(),
        4 => tape.bytes.truncate(random.below(length + 1)),
        5 => tape.bytes.truncate(block::SIZE * random.between(1, blocks)),
        6 => {
            let at = random.below(length + 1);
            let more = random.between(1, 3);
            let more = random.bytes(more);
            tape.bytes.splice(at..at, more);
        }
        7 => {
            let at = random.below(length);
            let end = length.min(at + random.between(1, 9));
            tape.bytes.drain(at..end);
        }
        8 => {
            let other = random.below(blocks);
            let block = tape.block(other).to_vec();
            let held = tape.block(place).to_vec();
            tape.block(other).copy_from_slice(&held);
            tape.block(place).copy_from_slice(&block);
        }
        9 => {
            tape.bytes.drain(start..start + block::SIZE);
        }
        10 => {
            let block = tape.block(place).to_vec();
            let at = block::SIZE * random.below(blocks + 1);
            tape.bytes.splice(at..at, block);
        }
        11 => {
            let data = random.pick(&[1, 6, 504]);
            let data = random.bytes(data);
            tape.bytes.extend(block::made(blocks as u16, &data));
        }
        12 => {
            let used = block::number(&tape.block(place)[block::USED]) as u16;
            let other = random.pick(&[used.wrapping_sub(1), used.wrapping_add(1), used / 2]);
            tape.put_used(place, other);
        }
        _ => {
            let data = &mut tape.block(place)[block::DATA];
            let bytes = random.bytes(data.len());
            data.copy_from_slice(&bytes);
        }
    }
}
