//! Ticks and counters: both engines on short chains, small time-outs, and a look behind most steps.

mod causes;
mod counting;
mod frames;
mod refused;
mod register;

use super::layout::{Place, VALID};
use super::polling::{chains, SIZE};
use super::writer::Writer;
use crate::compare::Script;
use crate::random::Random;

/// One random script, a new bench at its start.
pub fn random_script(random: &mut Random) -> Script {
    let mut writer = Writer::new(random.draw());
    on_both_engines(&mut writer);
    writer.lines
}

/// The two chains of a script.
struct Chains {
    receiving: Vec<Place>,
    sending: Vec<Place>,
}

impl Writer {
    /// A value for the time-out register: mostly one that a few ticks reach, often with bits above
    /// the sixteen.
    pub fn time_out(&mut self) -> u32 {
        let value = match self.random.below(12) {
            0 => 0,
            1 => self.random.pick(&[0xFFFF, 0x8000, 0xFFFE, 0x100]),
            2 => self.random.word() & 0xFFFF,
            _ => self.random.between(1, 5) as u32,
        };
        match self.random.below(4) {
            0 => value | self.random.word() << 16,
            1 => value | self.random.pick(&[0x1_0000, 0x8000_0000, 0xFFFF_0000]),
            _ => value,
        }
    }

    fn write_time_out(&mut self, value: u32) {
        self.say(format!("write 48 {value:x}"));
    }

    /// What the time-out register holds.
    fn time_out_now(&self) -> u32 {
        self.console.bench.read(0x48).1
    }
}

fn on_both_engines(writer: &mut Writer) {
    let counts = [
        writer.random.between(1, 4),
        writer.random.pick(&[1, 2, 3, 3, 4, 4]),
    ];
    let slack = 4 * writer.random.below(8) as u32;
    writer.new_bench((counts[0] + counts[1]) as u32 * (16 + SIZE) + slack);
    writer.say("counters");
    writer.say("read 48");
    match writer.random.below(2) {
        0 => writer.set_filter(),
        _ => {
            writer.say("write 400 80000000");
        }
    }
    let table = chains(writer, counts);
    for place in &table {
        place.write(writer);
        writer.marks.push(place.address);
    }
    let (receiving, sending) = table.split_at(counts[0]);
    let chains = Chains {
        receiving: receiving.to_vec(),
        sending: sending.to_vec(),
    };
    for _ in 0..writer.random.between(12, 40) {
        step(writer, &chains);
    }
    if writer.random.once_in(2) {
        counting::up(writer, &chains.sending);
    }
    // What was counted must be gone by the next new bench, and by one that is refused.
    if writer.random.once_in(2) {
        let new = writer.random.pick(&["new 2 64", "new 0 60", "new 0 64"]);
        writer.say(new);
        writer.say("counters");
    }
}

fn step(writer: &mut Writer, chains: &Chains) {
    let sending = &chains.sending;
    match writer.random.below(47) {
        0..=3 | 45 | 46 => counting::up_to_a_fire(writer, sending),
        4 | 5 => causes::stopped(writer, sending),
        6 | 7 => causes::returned(writer, sending),
        8..=10 => causes::outside(writer, sending),
        11..=18 => frames::sent(writer, sending),
        19..=24 => refused::send(writer, sending),
        25..=30 => register::written(writer, sending),
        31 | 32 => register::zero(writer, sending),
        33 | 34 => refused::tick(writer, sending),
        35 => counting::at_a_bad_buffer(writer, sending),
        36..=39 => frames::received(writer, &chains.receiving),
        40 => frames::on_one_chain(writer, chains),
        41 => counting::by_other_writes(writer, sending),
        42 => {
            writer.register_write();
            writer.say("tick");
            writer.say("counters");
        }
        43 => writer.observe(),
        _ => {
            writer.any();
            writer.say("counters");
        }
    }
}

/// Sending runs at a granted descriptor of its chain, whatever was before; the descriptors are as
/// they were made, but for some that are granted.
fn waits(writer: &mut Writer, chain: &[Place]) -> u32 {
    let place = writer.console.bench.sender.place;
    let there = chain.iter().any(|entry| entry.address == place);
    if !there || !writer.console.bench.sender.running {
        let first = writer.random.pick(chain).address;
        writer.say("write 30 0");
        super::sending::start(writer, first);
    }
    let place = writer.console.bench.sender.place;
    let found = chain.iter().find(|entry| entry.address == place);
    let mut entry = *found.expect("sending stands in its chain");
    entry.status = VALID;
    let bytes = entry.bytes();
    let window = writer.console.bench.window;
    let there = window
        .places(place, 16)
        .map(|places| &writer.console.memory[places]);
    if there != Some(&bytes[..]) {
        // Not by the place's own words alone: any bits may stand beside VALID.
        if writer.random.once_in(4) {
            entry.status |= writer.random.word();
        }
        entry.write(writer);
    }
    place
}

#[cfg(test)]
mod tests {
    use super::*;
    use crate::console::Console;

    #[test]
    fn ticks_fire_and_counts_are_seen() {
        let mut random = Random::new(12);
        let (mut fired, mut counted) = (0, 0);
        for _ in 0..40 {
            let mut console = Console::new();
            for line in random_script(&mut random) {
                let before = console.bench.read(8).1;
                let answer = console.take(&line).unwrap_or_default();
                fired += usize::from(console.bench.read(8).1 & !before & 1 << 19 != 0);
                counted += usize::from(answer.starts_with("counters") && console.bench.ticks > 0);
            }
        }
        assert!(fired > 100, "{fired}");
        assert!(counted > 500, "{counted}");
    }
}
