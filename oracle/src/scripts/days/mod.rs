//! Days that can be recorded: a window, its bytes, and then events alone.

mod both;
mod idle;
mod reasons;
mod receiving;
mod sending;

use super::writer::Writer;
use crate::compare::Script;
use crate::console::Console;
use crate::random::Random;

/// The kinds of random day.
const KINDS: [fn(&mut Writer); 7] = [
    receiving::on_a_ring,
    receiving::on_a_ring,
    reasons::on_a_ring,
    sending::along_a_chain,
    sending::along_a_chain,
    both::in_a_small_window,
    idle::without_a_start,
];

/// The commands that a recorded day has.
const COMMANDS: [&[u8]; 6] = [b"new", b"poke", b"write", b"grant", b"frame", b"send"];

/// One random day.
pub fn random_day(random: &mut Random) -> Script {
    let mut writer = Writer::new(random.draw());
    random.pick(&KINDS)(&mut writer);
    recordable(writer.lines)
}

/// The script without what only looks, and without pokes that reach nothing.
fn recordable(script: Script) -> Script {
    let mut console = Console::new();
    let kept = |line: &Vec<u8>| {
        let command = line.split(|byte| *byte == b' ').next();
        let answer = console.take(line);
        COMMANDS.iter().any(|name| command == Some(name))
            && answer.is_some_and(|answer| answer != "poke outside")
    };
    script.into_iter().filter(kept).collect()
}

/// A send with a room that is large enough to be recorded.
fn send(writer: &mut Writer) -> String {
    let room = writer.random.pick(&[1_518, 1_518, 1_519, 3_036, 65_536]);
    writer.say(format!("send {room}"))
}

/// A grant at a mark or anywhere.
fn grant(writer: &mut Writer) {
    let address = writer.mark();
    writer.say(format!("grant {address:x}"));
}

#[cfg(test)]
mod tests {
    use super::*;
    use crate::recording;

    #[test]
    fn every_day_can_be_recorded() {
        let mut random = Random::new(10);
        for _ in 0..200 {
            let day = random_day(&mut random).join(&b'\n');
            let recording = recording::of(&day).unwrap();
            assert!(!recording.events.is_empty());
        }
    }
}
