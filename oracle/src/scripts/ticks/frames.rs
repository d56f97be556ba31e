//! Frames that are counted: delivered, lost and sent, alone and many at once.

use super::{counting, Chains};
use crate::hex;
use crate::scripts::layout::{Place, VALID};
use crate::scripts::receiving;
use crate::scripts::writer::Writer;
use crate::side::Side;

/// A send that clears a count, alone or in a step run of as many as are granted.
pub fn sent(writer: &mut Writer, chain: &[Place]) {
    counting::up(writer, chain);
    let run = writer.random.below(5) > 1;
    if run || writer.random.once_in(2) {
        for entry in chain {
            let status = entry.address.wrapping_add(12);
            if writer.word(status) & VALID == 0 {
                writer.poke_word(status, VALID);
            }
        }
    }
    if run {
        let allowance = writer.random.pick(&[1, 2, 2, 3, 4, 4, 6, 6]);
        writer.say(format!("run {allowance} 9000"));
    } else {
        writer.say("send 1518");
    }
    writer.say("counters");
    if writer.random.once_in(3) {
        writer.say("tick");
        writer.say("counters");
    }
}

/// Frames that are delivered, lost or turned away, and the counters behind them.
pub fn received(writer: &mut Writer, chain: &[Place]) {
    if !writer.console.bench.receiver.running && !writer.random.once_in(6) {
        let first = writer.random.pick(chain);
        first.write(writer);
        let word = first.address | writer.low_bits();
        receiving::start_by(writer, word);
    }
    for entry in chain {
        if writer.random.once_in(2) {
            writer.say(format!("grant {:x}", entry.address));
        }
    }
    match writer.random.below(6) {
        0 | 1 => one_again(writer),
        2 => {
            let count = writer.random.between(2, 6);
            writer.burst_of(count);
        }
        _ => {
            for _ in 0..writer.random.between(1, 3) {
                alone(writer);
            }
        }
    }
    writer.say("counters");
}

/// A frame that passes; or one too long for its buffer; or any.
fn alone(writer: &mut Writer) {
    let length = writer.random.between(64, 80);
    let frame = match writer.random.below(6) {
        0 => writer.passing_frame(90),
        1 | 2 => writer.frame_of(length),
        _ => writer.passing_frame(length),
    };
    writer.say(format!("frame {}", hex::write(&frame)));
    if writer.random.once_in(2) {
        writer.say("counters");
    }
}

/// A burst of one frame, more than once.
fn one_again(writer: &mut Writer) {
    let frame = writer.passing_frame(64);
    let count = writer.random.between(2, 6);
    let pairs = format!(" 0 {}", frame.len()).repeat(count);
    writer.say(format!("burst {count} {}{pairs}", hex::write(&frame)));
}

/// Receiving stands where sending does: what is granted for the one is delivered into by the other,
/// and the next tick finds it returned.
pub fn on_one_chain(writer: &mut Writer, chains: &Chains) {
    let place = counting::up(writer, &chains.sending);
    writer.write_start(Side::Receiving, 0);
    let word = place | writer.low_bits();
    writer.write_next(Side::Receiving, word);
    writer.write_start(Side::Receiving, 5);
    alone(writer);
    writer.say("tick");
    writer.say("counters");
    writer.write_start(Side::Receiving, 0);
}
