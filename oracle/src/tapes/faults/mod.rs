//! One fault of each kind, put into a chosen block of a good trace.

mod events;
mod fields;

use super::Tape;
use crate::random::Random;
use crate::trace::block;

/// A fault by the test that finds it, if no other comes before.
#[derive(Clone, Copy, Debug, PartialEq, Eq, PartialOrd, Ord)]
pub enum Fault {
    /// These come first where several are put into one trace: the later ones leave what they did.
    Event,
    Fill,
    Used,
    Number,
    Check,
    Length,
}

pub const FAULTS: [Fault; 6] = [
    Fault::Event,
    Fault::Fill,
    Fault::Used,
    Fault::Number,
    Fault::Check,
    Fault::Length,
];

/// The names of all that `put` can do.
pub fn names() -> impl Iterator<Item = String> {
    let of = [
        (Fault::Event, events::NAMES),
        (Fault::Fill, fields::FILLS),
        (Fault::Used, fields::USED),
        (Fault::Number, fields::NUMBERS),
        (Fault::Check, fields::CHECKS),
        (Fault::Length, LENGTHS),
    ];
    of.into_iter()
        .flat_map(|(fault, names)| names.iter().map(move |name| format!("{fault:?} {name}")))
}

const LENGTHS: &[&str] = &["empty", "bytes behind the last block", "cut block"];

impl Fault {
    /// Puts a fault of this kind into a block. Gives its name, or nothing where it cannot be: then
    /// the trace is as it was.
    pub fn put(self, tape: &mut Tape, place: usize, random: &mut Random) -> Option<String> {
        let name = match self {
            Fault::Event => events::event(tape, place, random)?,
            Fault::Fill => fields::fill(tape, place, random)?,
            Fault::Used => fields::used(tape, place, random),
            Fault::Number => fields::number(tape, place, random),
            Fault::Check => return Some(format!("Check {}", fields::check(tape, place, random))),
            Fault::Length => return Some(format!("Length {}", length(tape, place, random))),
        };
        tape.recheck(place);
        Some(format!("{self:?} {name}"))
    }
}

fn length(tape: &mut Tape, place: usize, random: &mut Random) -> &'static str {
    let start = block::SIZE * place;
    match random.below(8) {
        0 if place == 0 => {
            tape.bytes.clear();
            "empty"
        }
        1 if place + 1 == tape.blocks() => {
            let more = random.pick(&[1, 4, 511]);
            let bytes = match random.below(3) {
                0 => vec![0; more],
                _ => random.bytes(more),
            };
            tape.bytes.extend(bytes);
            "bytes behind the last block"
        }
        _ => {
            let left = match random.below(3) {
                0 => random.pick(&[1, 2, 4, 508, 511]),
                _ => random.between(1, 511),
            };
            tape.bytes.truncate(start + left);
            "cut block"
        }
    }
}
