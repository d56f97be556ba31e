//! Numbers 8 in which another bit than the flag would have decided otherwise: a model that reads one
//! of them, or the right one too late, is told by these alone.

use crate::console::Console;
use crate::device::{Bench, Engine, POLLING};
use crate::numbers::DONE;
use crate::side::Side;
use crate::tally::Tally;
use crate::ungranted::Ungranted;

const REGISTER: &str = "the register has the other bit";
const OWN_WORD: &str = "the next word there has the other bit";
const CHANGED: &str = "the word that led there has it by now";

fn name(kind: Ungranted, slip: &str) -> String {
    format!("{kind}: {slip}")
}

pub fn expect(tally: &mut Tally) {
    for kind in Ungranted::all() {
        for slip in [REGISTER, OWN_WORD, CHANGED] {
            tally.expect(name(kind, slip));
        }
    }
}

#[derive(Default)]
pub struct Watch {
    before: [Engine; 2],
    /// The descriptor from which the engine came to its place, as far as it is known.
    from: [Option<u32>; 2],
}

impl Watch {
    /// Counts a number 8 of this kind by the other bits; it has left all of them as they were.
    pub fn lost(&self, tally: &mut Tally, kind: Ungranted, console: &Console) {
        let place = kind.side.of(&console.bench).place;
        let from = self.from[kind.side as usize];
        let (_, register) = console.bench.read(kind.side.next());
        for (slip, word) in [
            (REGISTER, Some(register)),
            (OWN_WORD, next_word(console, place)),
            (CHANGED, from.and_then(|from| next_word(console, from))),
        ] {
            if word.is_some_and(|word| (word & POLLING != 0) != kind.polling) {
                tally.met(name(kind, slip));
            }
        }
    }

    /// Follows the engines: a single frame or send comes from where the engine stood; of more than
    /// one it is not known, and a start comes from the register.
    pub fn moved(&mut self, side: Side, numbers: &[u32], bench: &Bench) {
        let from = &mut self.from[side as usize];
        match numbers {
            [DONE] => *from = Some(self.before[side as usize].place),
            _ if numbers.contains(&DONE) => *from = None,
            _ => {}
        }
        for side in Side::BOTH {
            let (before, now) = (&mut self.before[side as usize], side.of(bench));
            if now.running && !before.running {
                self.from[side as usize] = None;
            }
            *before = now;
        }
    }
}

/// The next word of the descriptor at this address, if it lies in the window.
fn next_word(console: &Console, address: u32) -> Option<u32> {
    let places = console.bench.window.places(address, 16)?;
    let bytes = &console.memory[places][8..12];
    Some(u32::from_le_bytes([bytes[0], bytes[1], bytes[2], bytes[3]]))
}
