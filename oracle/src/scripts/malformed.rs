//! Lines that are no calls, between calls.

use super::writer::Writer;
use super::{interrupts, malformed_bursts};
use crate::random::Random;

/// One good line of each form.
const GOOD: [&str; 19] = [
    "new 0 64",
    "lend 64",
    "read 8",
    "write 4 12345678",
    "line",
    "grant 10",
    "frame 0011",
    "burst 2 0011 0 1 2 0",
    "burst 0 -",
    "send 1518",
    "run 3 4000",
    "show 10",
    "ring 1 0",
    "poke 4 a5A5",
    "peek 0 16",
    "check",
    "state",
    "tick",
    "counters",
];

/// Words that are no number of any kind, or one out of its form.
const WORDS: [&str; 16] = [
    "",
    "g",
    "0x0",
    "+1",
    "-1",
    "000000001",
    "123456789",
    "1.0",
    "1,0",
    "--",
    "0-",
    "f0f",
    "99999999",
    "65545",
    "65537",
    "\u{e9}",
];

/// Lines that start with nothing good.
const OTHERS: [&[u8]; 17] = [
    b" ",
    b"  ",
    b"\t",
    b"\r",
    b"\0",
    b"#",
    b"# read 8",
    b"",
    b" # no comment",
    b"new",
    b"reads 8",
    b"rea 8",
    b"check\0",
    b"tick 1",
    b"counters 0",
    b"counter",
    b"\xFF\xFE",
];

pub fn lines(writer: &mut Writer) {
    writer.new_bench(64);
    for _ in 0..writer.random.between(20, 80) {
        let line = line(&mut writer.random);
        writer.say(line);
        if writer.random.once_in(3) {
            writer.observe();
        }
    }
    writer.observe();
}

/// A line that is no call, most often.
pub fn line(random: &mut Random) -> Vec<u8> {
    if random.once_in(6) {
        return malformed_bursts::line(random).into_bytes();
    }
    if random.once_in(10) {
        return interrupts::malformed_line(random);
    }
    let good = random.pick(&GOOD).to_string();
    let mut words: Vec<&str> = good.split(' ').collect();
    match random.below(12) {
        0 => {
            words.pop();
        }
        1 => words.push("0"),
        2 => words.insert(random.below(words.len() + 1), ""),
        3 | 4 => {
            let place = random.below(words.len());
            words[place] = random.pick(&WORDS);
        }
        5 => {
            let upper = words[0].to_uppercase();
            words[0] = &upper;
            return words.join(" ").into_bytes();
        }
        6 => return one_character_off(good.into_bytes(), random),
        7 => {
            return [
                good.as_bytes(),
                random.pick(&[b"\r", b"\t", b" ", b"\0", b"\x80"]),
            ]
            .concat()
        }
        8 => return random.pick(&OTHERS).to_vec(),
        9 => return long(random),
        _ => {}
    }
    words.join(" ").into_bytes()
}

/// Any character but a line feed in place of one.
fn one_character_off(mut line: Vec<u8>, random: &mut Random) -> Vec<u8> {
    let place = random.below(line.len());
    line[place] = match random.byte() {
        b'\n' => b' ',
        other => other,
    };
    line
}

/// Lines about as long as a line may be.
fn long(random: &mut Random) -> Vec<u8> {
    let length = random.pick(&[4_094, 4_095, 4_096, 4_097, 4_098, 9_000]);
    let start = random.pick(&["frame ", "burst 0 ", "poke 0 ", "# ", "read ", "check", ""]);
    let mut line = start.as_bytes().to_vec();
    line.resize(length, b'0');
    line
}
