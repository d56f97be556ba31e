//! Counts what the interrupt controllers are asked and answer: each register, what is taken into
//! service and ended, and the calls by which a wrong reading would be seen.

mod registers;
mod service;
mod slips;
#[cfg(test)]
mod tests;

use crate::console::{self, Call, Console};
use crate::tally::Tally;
use crate::vic::Pair;

/// How many calls to the controllers a whole comparison must make.
const CALLS_LEAST: usize = 200_000;
const CALLS: &str = "interrupts, calls";
/// Lines that name one of the commands and are no call.
const NO_CALL: &str = "interrupts, error";
const NO_CALL_LEAST: usize = 100;

const COMMANDS: [&[u8]; 5] = [b"vread", b"vwrite", b"inputs", b"irq", b"fiq"];

/// All names with their least numbers.
fn names() -> impl Iterator<Item = (String, usize)> {
    [(CALLS, CALLS_LEAST), (NO_CALL, NO_CALL_LEAST)]
        .into_iter()
        .map(|(name, least)| (name.to_string(), least))
        .chain(registers::names())
        .chain(service::names())
        .chain(slips::names())
}

pub fn expect(tally: &mut Tally) {
    names().for_each(|(name, _)| tally.expect(name));
}

/// How often a kind must be met in a whole comparison, if it is one of the controllers.
pub fn least(kind: &str) -> Option<usize> {
    let found = names().find(|(name, _)| name == kind);
    found.map(|(_, least)| least)
}

/// Follows the controllers through a script.
#[derive(Default)]
pub struct Watch {
    /// As they were before the line.
    before: Pair,
    slips: slips::Watch,
}

impl Watch {
    /// Counts what a line and its answer say. The console has taken the line.
    pub fn count(&mut self, tally: &mut Tally, line: &[u8], answer: &str, console: &Console) {
        let command = line.split(|byte| *byte == b' ').next().unwrap_or_default();
        if let Some(number) = answer.strip_prefix("new ") {
            self.slips.renewed(number.parse().unwrap_or_default());
        } else if COMMANDS.contains(&command) {
            match console::call(line) {
                Some(Call::Interrupts(call)) => {
                    tally.met(CALLS);
                    registers::count(tally, call);
                    // No call to the controllers changes the bench, so its line is as it was.
                    service::count(tally, call, &self.before, console.levels());
                    self.slips.count(tally, call, console.bench.line(), answer);
                }
                _ => tally.met(NO_CALL),
            }
        } else {
            return;
        }
        self.before.clone_from(&console.pair);
    }
}
