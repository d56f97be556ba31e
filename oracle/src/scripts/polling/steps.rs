//! Steps that tell stopping from looking again, and the flag from the words that it is not.

use super::LOW_BITS;
use crate::scripts::layout::Place;
use crate::scripts::writer::Writer;
use crate::side::Side;

/// Whether an answer's number is 8.
pub fn is_8(answer: &str) -> bool {
    answer.split(' ').nth(1) == Some("8")
}

/// Goes on behind a number 8. An engine that looks again takes what is granted meanwhile; one that
/// stopped answers 3 until a start write, which reads the register anew. Gives whether the place was
/// granted.
pub fn go_on(writer: &mut Writer, side: Side) -> bool {
    let place = side.of(&writer.console.bench).place;
    let granted = match writer.random.below(4) {
        0 => false,
        _ => writer.say(format!("grant {place:x}")) == "grant 0",
    };
    writer.call(side);
    writer.say("state");
    match writer.random.below(5) {
        0 => {}
        // The register as it stands.
        1 | 2 => writer.write_start(side, 5),
        // Or with other bits; a running engine refuses that.
        _ => {
            let word = place | writer.low_bits();
            writer.write_next(side, word);
            writer.write_start(side, 5);
        }
    }
    if is_8(&writer.call(side)) && writer.random.once_in(2) {
        writer.call(side);
    }
    writer.say("state");
    granted
}

/// The firmware gives a next word other low bits: that of the descriptor that leads to the engine's
/// place, that of the one which stands there, or any other. The engine has been led there already,
/// so that only a later move can see it.
pub fn change_next_word(writer: &mut Writer, side: Side, chain: &[Place]) {
    let place = side.of(&writer.console.bench).place;
    let next = |writer: &Writer, entry: &Place| writer.word(entry.address.wrapping_add(8));
    let leading = chain
        .iter()
        .find(|entry| next(writer, entry) & !LOW_BITS == place);
    let chosen = match writer.random.below(4) {
        0 | 1 => leading,
        2 => chain.iter().find(|entry| entry.address == place),
        _ => None,
    };
    let entry = match chosen {
        Some(entry) => *entry,
        None => writer.random.pick(chain),
    };
    let bits = writer.random.pick(&[1, 1, 2, 3]);
    let word = next(writer, &entry) ^ bits;
    writer.poke_word(entry.address.wrapping_add(8), word);
}

/// A start write that keeps DMA enable: nothing to a running engine, whatever its register holds.
pub fn start_again(writer: &mut Writer, side: Side) {
    let other_bits = match writer.random.below(3) {
        0 => writer.random.word() & !5,
        _ => 0,
    };
    let bits = writer.random.pick(&[1, 5, 5, 5]);
    writer.write_start(side, bits | other_bits);
}
