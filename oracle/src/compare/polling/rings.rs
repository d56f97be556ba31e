//! Rings that are sound but for polling bits.

use crate::console::{Call, Console};
use crate::device::{Bench, POLLING};
use crate::tally::Tally;

const ONE: &str = "ring no, for one polling bit";
const MORE: &str = "ring no, for more polling bits";

pub fn expect(tally: &mut Tally) {
    tally.expect(ONE);
    tally.expect(MORE);
}

/// Counts a ring check that was answered no, if polling bits are all that it wants.
pub fn count(tally: &mut Tally, line: &[u8], answer: &str, console: &Console) {
    if answer != "ring no" {
        return;
    }
    let Some(Call::Ring { count, first }) = Call::parse(line) else {
        return;
    };
    match wanted_bits(&console.bench, console.lent(), count, first) {
        Some(1) => tally.met(ONE),
        Some(_) => tally.met(MORE),
        None => {}
    }
}

/// How many polling bits would make the ring sound; nothing if they would not.
fn wanted_bits(bench: &Bench, lent: &[u8], count: u32, first: u32) -> Option<usize> {
    let mut memory = lent.to_vec();
    let mut wanted = 0;
    let mut address = first;
    // More than 32 are never sound.
    for _ in 0..count.min(32) {
        let places = bench.window.places(address, 16)?;
        let word = memory.get_mut(places)?.get_mut(8..12)?;
        if u32::from(word[0]) & POLLING == 0 {
            word[0] |= POLLING as u8;
            wanted += 1;
        }
        address = u32::from_le_bytes([word[0], word[1], word[2], word[3]]) & !3;
    }
    bench.ring(&memory, count, first).then_some(wanted)
}
