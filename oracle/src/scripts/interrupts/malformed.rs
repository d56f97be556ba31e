//! Lines that are almost calls to the controllers, between calls.

use super::serving;
use super::setup::{self, Inputs};
use crate::random::Random;
use crate::scripts::writer::Writer;

/// One good line of each form.
const GOOD: [&str; 8] = [
    "vread 0 30",
    "vread 1 10c",
    "vwrite 1 10 ffff",
    "vwrite 0 30 0",
    "inputs 0 8",
    "inputs 1 FFFF0101",
    "irq",
    "fiq",
];

/// Words that name no controller.
const CONTROLLERS: [&str; 12] = [
    "2", "3", "9", "a", "00", "01", "10", "000", "-", "-1", "+0", "0x0",
];

/// Words that are no number.
const NUMBERS: [&str; 9] = [
    "g",
    "0x30",
    "000000030",
    "123456789",
    "-1",
    "+1",
    "3.0",
    "-",
    "\u{e9}",
];

pub fn lines(writer: &mut Writer) {
    writer.say("new 0 64");
    let inputs = Inputs::all(&mut writer.random);
    setup::controllers(writer, &inputs);
    for _ in 0..writer.random.between(20, 60) {
        let line = line(&mut writer.random);
        writer.say(line);
        match writer.random.below(4) {
            0 => writer.look_at_interrupts(),
            1 => serving::step(writer, &inputs, 8),
            _ => {}
        }
    }
    writer.look_at_interrupts();
}

/// A line that is no call, most often.
pub fn line(random: &mut Random) -> Vec<u8> {
    let good = random.pick(&GOOD);
    let mut words: Vec<String> = good.split(' ').map(String::from).collect();
    let last = words.len() - 1;
    match random.below(10) {
        0 => {
            words.pop();
        }
        1 => words.push(random.pick(&["0", "1", "30"]).to_string()),
        2 => words.insert(random.below(last + 2), String::new()),
        3 | 4 if last > 0 => words[1] = random.pick(&CONTROLLERS).to_string(),
        // The controller left out.
        5 if last > 0 => {
            words.remove(1);
        }
        6 if last > 0 => words[last] = random.pick(&NUMBERS).to_string(),
        7 => words[0] = words[0].to_uppercase(),
        8 => words[0] += random.pick(&["s", "0", "\t", "\r", "\0"]),
        9 => {
            let mut bytes = words.join(" ").into_bytes();
            let place = random.below(bytes.len());
            bytes[place] = random.byte().max(b' ');
            return bytes;
        }
        _ => {}
    }
    words.join(" ").into_bytes()
}
