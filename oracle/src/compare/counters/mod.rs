//! Counts what becomes of the counters and of the count of ticks, where a following line shows it; and
//! the answers by which a wrong reading would be seen.

mod happened;
mod seen;
mod slips;
#[cfg(test)]
mod tests;

use crate::console::{self, Console};
use crate::tally::Tally;
use happened::Happened;

/// All names with their least numbers.
fn names() -> impl Iterator<Item = (String, usize)> {
    seen::names().chain(slips::names())
}

pub fn expect(tally: &mut Tally) {
    names().for_each(|(name, _)| tally.expect(name));
}

/// How often a kind must be met in a whole comparison, if it is one of the counters.
pub fn least(kind: &str) -> Option<usize> {
    let found = names().find(|(name, _)| name == kind);
    found.map(|(_, least)| least)
}

/// Follows the counters through a script.
#[derive(Default)]
pub struct Watch {
    seen: seen::Watch,
    slips: slips::Watch,
}

impl Watch {
    /// Counts what a line and its answer say. The console has taken the line.
    pub fn count(&mut self, tally: &mut Tally, line: &[u8], answer: &str, console: &Console) {
        let Some(call) = console::call(line) else {
            return;
        };
        let happened = Happened::of(&call, answer, console);
        self.seen.count(tally, &call, &happened, console);
        self.slips.count(tally, &call, &happened, answer, console);
    }
}
