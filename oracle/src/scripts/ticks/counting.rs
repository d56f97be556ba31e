//! Ticks in a row, up to a time-out and past it.

use super::waits;
use crate::scripts::layout::Place;
use crate::scripts::writer::Writer;

/// A time-out that so many ticks reach is worth waiting for.
const FEW: u32 = 8;

/// A tick, and often a look at the count.
fn tick(writer: &mut Writer) {
    writer.say("tick");
    if writer.random.once_in(3) {
        writer.say("counters");
    }
}

/// Ticks until the count is at least one, and not yet above the value. Gives the engine's place.
pub fn up(writer: &mut Writer, chain: &[Place]) -> u32 {
    let place = waits(writer, chain);
    let room = |writer: &Writer| {
        writer
            .time_out_now()
            .saturating_sub(writer.console.bench.ticks)
    };
    if room(writer) == 0 || writer.random.once_in(3) {
        let value = writer.console.bench.ticks + writer.random.between(1, 5) as u32;
        let above = match writer.random.below(4) {
            0 => writer.random.word() << 16,
            _ => 0,
        };
        writer.write_time_out(value & 0xFFFF | above);
    }
    let most = room(writer).clamp(1, 4) as usize;
    for _ in 0..writer.random.between(1, most) {
        tick(writer);
    }
    place
}

/// Ticks up to a time-out, and often on to the next.
pub fn up_to_a_fire(writer: &mut Writer, chain: &[Place]) {
    waits(writer, chain);
    let value = writer.time_out_now();
    if value == 0 || value > FEW || writer.random.once_in(3) {
        let value = writer.random.between(1, 5) as u32;
        writer.write_time_out(value);
    }
    fire(writer);
    while !writer.random.once_in(4) {
        match writer.random.below(4) {
            0 => {
                writer.say("tick");
                writer.say("counters");
            }
            1 => writer.write_time_out(2),
            _ => {}
        }
        fire(writer);
    }
}

/// Ticks until one fires.
fn fire(writer: &mut Writer) {
    if !writer.random.once_in(4) {
        let value = writer
            .random
            .pick(&["80000", "80000", "ffffffff", "f00008"]);
        writer.say(format!("write 8 {value}"));
    }
    let quiet = !writer.random.once_in(3);
    while writer.console.bench.ticks < writer.time_out_now() {
        match quiet {
            true => {
                writer.say("tick");
            }
            false => tick(writer),
        }
    }
    if writer.random.once_in(4) {
        writer.say("read 8");
    }
    if writer.random.once_in(6) {
        writer.say("write 4 00080008");
    }
    writer.say("tick");
    match writer.random.below(6) {
        0 => {
            writer.say("counters");
        }
        1..=3 => {
            writer.say("read 8");
        }
        4 => {
            writer.say("line");
            writer.say("state");
        }
        _ => {
            writer.say("read 8");
            writer.say("counters");
            writer.say("line");
        }
    }
}

/// A descriptor that could not be sent counts as any other, since no tick looks at its buffer.
pub fn at_a_bad_buffer(writer: &mut Writer, chain: &[Place]) {
    let place = waits(writer, chain);
    let outside = writer.end();
    match writer.random.below(4) {
        0 => writer.poke_word(place, 13),
        1 => writer.poke_word(place, 0x4FFF),
        2 => writer.poke_word(place.wrapping_add(4), outside),
        _ => writer.poke_word(place.wrapping_add(4), place | 1),
    }
    let value = writer.console.bench.ticks + writer.random.between(1, 4) as u32;
    writer.write_time_out(value & 0xFFFF);
    for _ in 0..writer.random.between(1, 3) {
        writer.say("tick");
        writer.say("counters");
    }
    if writer.random.once_in(2) {
        writer.say("read 8");
        writer.say("send 1518");
        writer.say("counters");
    }
}

/// Writes of other registers between two ticks: they leave the count.
pub fn by_other_writes(writer: &mut Writer, chain: &[Place]) {
    up(writer, chain);
    let line = match writer.random.below(8) {
        0 => "write 30 5",
        1 => "write 30 0",
        2 => "write 10 0",
        3 => "write 4 0",
        4 => "write 8 ffffffff",
        5 => "write 44 0",
        6 => "write 4c 0",
        _ => "write 49 0",
    };
    writer.say(line);
    writer.say("counters");
    writer.say("write 30 5");
    writer.say("counters");
    writer.say("tick");
    writer.say("counters");
}
