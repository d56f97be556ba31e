//! Counts what number 8 does by polling: its four kinds, those in which a slip about the flag would
//! show, and what comes behind it; and rings that polling bits decide about.

mod again;
mod rings;
mod slips;
#[cfg(test)]
mod tests;

use crate::console::Console;
use crate::numbers::{DONE, NOT_GRANTED};
use crate::side::Side;
use crate::tally::Tally;
use crate::ungranted::Ungranted;

/// How often each of the four kinds must be met in a whole comparison.
const KIND_LEAST: usize = 1_000;
/// And what must come behind them, so that stopping and looking again are told apart.
const AGAIN_LEAST: usize = 500;

pub fn expect(tally: &mut Tally) {
    for kind in Ungranted::all() {
        tally.expect(kind.to_string());
    }
    again::expect(tally);
    rings::expect(tally);
    slips::expect(tally);
}

/// How often a kind must be met in a whole comparison, if polling asks for more than others do.
pub fn least(kind: &str) -> Option<usize> {
    if Ungranted::all().any(|name| name.to_string() == kind) {
        Some(KIND_LEAST)
    } else if again::is(kind) {
        Some(AGAIN_LEAST)
    } else {
        None
    }
}

/// Follows both engines through a script.
#[derive(Default)]
pub struct Watch {
    again: again::Watch,
    slips: slips::Watch,
}

impl Watch {
    /// Counts what a line's answer says. The console has taken the line.
    pub fn count(&mut self, tally: &mut Tally, line: &[u8], answer: &str, console: &Console) {
        if answer.starts_with("new ") {
            *self = Watch::default();
        }
        let (side, numbers) = answers(answer);
        self.slips.moved(side, &numbers, &console.bench);
        for _ in numbers.iter().filter(|number| **number == NOT_GRANTED) {
            let kind = Ungranted::of(side, &console.bench);
            tally.met(kind.to_string());
            self.slips.lost(tally, kind, console);
        }
        self.again.stopped(line, answer);
        self.again.answered(tally, side, &numbers, &console.bench);
        rings::count(tally, line, answer, console);
    }
}

/// The numbers that an engine gave to a line's frames or sends, in order. Behind an 8 no line goes
/// on to another place, so that the flag at its end is that of all its 8.
pub fn answers(answer: &str) -> (Side, Vec<u32>) {
    let words: Vec<&str> = answer.split(' ').collect();
    match words[..] {
        ["frame", number] => (Side::Receiving, numbers(&[number])),
        ["burst", "0", ref answers @ ..] => (Side::Receiving, numbers(answers)),
        ["send", number, _] => (Side::Sending, numbers(&[number])),
        ["run", number, steps, ..] => {
            // All steps but the last one sent, and there may be none.
            let steps: usize = steps.parse().unwrap_or_default();
            let mut all = vec![DONE; steps.saturating_sub(1)];
            all.extend(numbers(&[number]));
            all.truncate(steps);
            (Side::Sending, all)
        }
        _ => (Side::Receiving, Vec::new()),
    }
}

fn numbers(words: &[&str]) -> Vec<u32> {
    words.iter().filter_map(|word| word.parse().ok()).collect()
}
