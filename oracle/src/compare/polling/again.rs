//! What comes behind a number 8: an engine that stopped by it answers 3 until it is started anew, and
//! one that did not takes what was granted meanwhile.

use crate::console::Call;
use crate::device::registers::DMA_ENABLE;
use crate::device::Bench;
use crate::numbers::{DONE, NOT_GRANTED, NOT_RUNNING};
use crate::side::Side;
use crate::tally::Tally;

const STOPPED: &str = "3 behind an 8 that stopped";
const STARTED: &str = "start behind an 8 that stopped";
const LOOKED: &str = "0 behind an 8 that did not stop";

fn name(kind: &str, side: Side) -> String {
    format!("{kind} {side}")
}

fn names() -> impl Iterator<Item = String> {
    let kinds = [STOPPED, STARTED, LOOKED];
    kinds
        .into_iter()
        .flat_map(|kind| Side::BOTH.map(|side| name(kind, side)))
}

pub fn expect(tally: &mut Tally) {
    names().for_each(|name| tally.expect(name));
}

pub fn is(kind: &str) -> bool {
    names().any(|name| name == kind)
}

/// What the last number 8 of an engine left, as long as nothing else happened to it.
#[derive(Clone, Copy, Default, PartialEq, Eq)]
enum Left {
    #[default]
    Nothing,
    Looking,
    Stopped,
}

#[derive(Default)]
pub struct Watch {
    left: [Left; 2],
}

impl Watch {
    /// Forgets an 8 behind which DMA enable was cleared: that stops its engine, whatever the 8 did.
    pub fn stopped(&mut self, line: &[u8], answer: &str) {
        if answer != "write 0" {
            return;
        }
        let Some(Call::Write { offset, value }) = Call::parse(line) else {
            return;
        };
        for side in Side::BOTH {
            if side.start() == offset && value & DMA_ENABLE == 0 {
                self.left[side as usize] = Left::Nothing;
            }
        }
    }

    /// Counts the answers of one engine to a line, and what else the line did to both.
    pub fn answered(&mut self, tally: &mut Tally, side: Side, numbers: &[u32], bench: &Bench) {
        let left = &mut self.left[side as usize];
        for number in numbers {
            *left = match (*left, *number) {
                (_, NOT_GRANTED) if side.of(bench).polling => Left::Looking,
                (_, NOT_GRANTED) => Left::Stopped,
                (Left::Stopped, NOT_RUNNING) => {
                    tally.met(name(STOPPED, side));
                    Left::Stopped
                }
                (Left::Looking, DONE) => {
                    tally.met(name(LOOKED, side));
                    Left::Nothing
                }
                (left, _) => left,
            };
        }
        for side in Side::BOTH {
            let left = &mut self.left[side as usize];
            match (*left, side.of(bench).running) {
                (Left::Stopped, true) => {
                    tally.met(name(STARTED, side));
                    *left = Left::Nothing;
                }
                // Stopped by something else.
                (Left::Looking, false) => *left = Left::Nothing,
                _ => {}
            }
        }
    }
}
