//! Scripts for `record`: days that can be recorded, and what spoils them.

use oracle::compare::Script;
use oracle::random::Random;
use oracle::scripts::{days, malformed_line, random_script};

/// What is done to a day.
pub const KINDS: [&str; 21] = [
    "as it is",
    "comments and empty lines",
    "no last line feed",
    "other forms of the same words",
    "long comment",
    "carriage returns in comments",
    "carriage returns",
    "line put in",
    "lines put in",
    "line put in among comments",
    "other command put in",
    "line too long",
    "poke outside",
    "poke behind an event",
    "send with too little room",
    "no new",
    "new not allowed",
    "second new",
    "cut anywhere",
    "nothing but comments",
    "script of the console",
];

/// So many of these leave a day that can be recorded.
const RECORDED: usize = 6;

pub struct Made {
    pub kind: &'static str,
    pub text: Vec<u8>,
}

/// The script of a seed.
pub fn random(seed: u64) -> Made {
    let random = &mut Random::new(seed);
    let kind = match random.below(3) {
        // So that enough are recorded.
        0 => KINDS[random.below(RECORDED)],
        _ => random.pick(&KINDS),
    };
    let mut lines = days::random_day(random);
    let count = lines.len();
    let mut last_line_feed = !random.once_in(4);
    match kind {
        "comments and empty lines" => decorate(&mut lines, random),
        "no last line feed" => last_line_feed = false,
        "other forms of the same words" => rewrite(&mut lines, random),
        "long comment" => put(&mut lines, long(b"#", random), random),
        "carriage returns in comments" => {
            decorate(&mut lines, random);
            lines
                .iter_mut()
                .filter(|line| line.starts_with(b"#"))
                .for_each(end_by_return);
        }
        "carriage returns" => match random.below(2) {
            0 => lines.iter_mut().for_each(end_by_return),
            _ => end_by_return(&mut lines[random.below(count)]),
        },
        "line put in" => put(&mut lines, malformed_line(random), random),
        "lines put in" => {
            for _ in 0..random.between(2, 4) {
                put(&mut lines, malformed_line(random), random);
            }
        }
        "line put in among comments" => {
            put(&mut lines, other_command(random), random);
            decorate(&mut lines, random);
        }
        "other command put in" => put(&mut lines, other_command(random), random),
        "line too long" => {
            let command = random.pick(&[&b"frame "[..], b"poke 0 ", b"write 0 "]);
            put(&mut lines, long(command, random), random);
        }
        "poke outside" => poke_outside(&mut lines, random),
        "poke behind an event" => poke_behind(&mut lines, random),
        "send with too little room" => {
            let room = random.pick(&[0, 1, 64, 1_516, 1_517, 65_537, 99_999_999]);
            put(&mut lines, format!("send {room}").into_bytes(), random);
        }
        "no new" => {
            lines.remove(0);
        }
        "new not allowed" => lines[0] = bad_new(random),
        "second new" => {
            let new = lines[0].clone();
            put(&mut lines, new, random);
        }
        "nothing but comments" => {
            lines.clear();
            for _ in 0..random.below(4) {
                lines.push(random.pick(&[&b""[..], b"#", b"# new 0 64"]).to_vec());
            }
        }
        "script of the console" => lines = random_script(random),
        _ => {}
    }
    let mut text = lines.join(&b'\n');
    if last_line_feed && !lines.is_empty() {
        text.push(b'\n');
    }
    if kind == "cut anywhere" {
        text.truncate(random.below(text.len() + 1));
    }
    Made { kind, text }
}

/// A line at any place, often near the front, where `new` and the pokes stand.
fn put(lines: &mut Script, line: Vec<u8>, random: &mut Random) {
    let place = match random.below(3) {
        0 => random.below(3).min(lines.len()),
        1 => lines.len(),
        _ => random.below(lines.len() + 1),
    };
    lines.insert(place, line);
}

fn decorate(lines: &mut Script, random: &mut Random) {
    for _ in 0..random.between(1, 12) {
        let line = random.pick(&[&b""[..], b"", b"#", b"# send 1", b"#new", b"#\t\xFF\0"]);
        put(lines, line.to_vec(), random);
    }
}

fn end_by_return(line: &mut Vec<u8>) {
    line.push(b'\r');
}

/// Numbers with zeros in front, digits in the other case.
fn rewrite(lines: &mut Script, random: &mut Random) {
    for line in lines {
        let Ok(text) = std::str::from_utf8(line) else {
            continue;
        };
        let words: Vec<String> = text
            .split(' ')
            .enumerate()
            .map(|(place, word)| match place {
                0 => word.to_string(),
                _ if word.len() < 8 && !text.starts_with("frame") && word != "-" => {
                    // Bytes of a poke have no zeros in front.
                    match text.starts_with("poke") && place == 2 {
                        true => word.to_uppercase(),
                        false => format!("{word:0>0$}", random.between(word.len(), 8)),
                    }
                }
                _ => word.to_uppercase(),
            })
            .collect();
        *line = words.join(" ").into_bytes();
    }
}

/// About as long as a line may be: 4,096 characters.
fn long(front: &[u8], random: &mut Random) -> Vec<u8> {
    let mut line = front.to_vec();
    line.resize(random.pick(&[4_096, 4_097, 4_098, 8_192, 20_000]), b'0');
    line
}

fn other_command(random: &mut Random) -> Vec<u8> {
    let line = random.pick(&[
        "lend 64",
        "read 8",
        "line",
        "burst 0 -",
        "run 1 1518",
        "show 0",
        "ring 1 0",
        "peek 0 1",
        "check",
        "state",
        "tick",
        "counters",
        "vread 0 30",
        "vwrite 0 10 800",
        "inputs 0 1",
        "irq",
        "fiq",
        "hello",
        "record",
        "write 4",
        "frame",
        "send 1518 ",
        " send 1518",
        "send 1518\r",
        "grant 0 0",
    ]);
    line.as_bytes().to_vec()
}

fn bad_new(random: &mut Random) -> Vec<u8> {
    let line = random.pick(&[
        "new 0 60",
        "new 0 66",
        "new 0 65540",
        "new 2 64",
        "new 1 65536",
        "new ffffffc4 64",
        "new 0 0",
        "new 0 99999999",
        "new 0",
        "new 0 64 ",
        "new g 64",
    ]);
    line.as_bytes().to_vec()
}

/// The base and the length of the window, from the first line of a day.
fn window(lines: &Script) -> (u32, u32) {
    let text = String::from_utf8_lossy(&lines[0]);
    let words: Vec<&str> = text.split(' ').collect();
    let base = u32::from_str_radix(words[1], 16).expect("a day has an allowed window");
    (base, words[2].parse().expect("a day has an allowed window"))
}

/// Bytes of which the last, or all, lie outside; and none, at and past the ends.
fn poke_outside(lines: &mut Script, random: &mut Random) {
    let (base, length) = window(lines);
    let end = base.wrapping_add(length);
    let (address, bytes) = random.pick(&[
        (end, "00"),
        (end.wrapping_sub(1), "0011"),
        (base.wrapping_sub(1), "00"),
        (base.wrapping_sub(1), "0011"),
        (end, "-"),
        (end.wrapping_add(1), "-"),
        (base.wrapping_sub(1), "-"),
    ]);
    lines.insert(1, format!("poke {address:x} {bytes}").into_bytes());
}

fn poke_behind(lines: &mut Script, random: &mut Random) {
    let (base, _) = window(lines);
    let events = lines
        .iter()
        .take_while(|line| line.starts_with(b"new") || line.starts_with(b"poke"))
        .count();
    let place = random.between(events + 1, lines.len());
    let bytes = random.pick(&["00", "-"]);
    lines.insert(place, format!("poke {base:x} {bytes}").into_bytes());
}

#[cfg(test)]
mod tests {
    use super::*;
    use oracle::recording;

    #[test]
    fn what_must_be_recorded_and_what_must_not() {
        let good = &KINDS[..RECORDED];
        let wrong = [
            "carriage returns",
            "line put in among comments",
            "poke behind an event",
            "send with too little room",
            "no new",
            "new not allowed",
            "second new",
            "nothing but comments",
        ];
        for seed in 0..400 {
            let made = random(seed);
            let recorded = recording::of(&made.text);
            if good.contains(&made.kind) {
                assert!(recorded.is_ok(), "{} {:?}", made.kind, recorded.err());
            } else if wrong.contains(&made.kind) {
                assert!(recorded.is_err(), "{} {seed}", made.kind);
            }
        }
    }
}
