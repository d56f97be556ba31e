//! One comparison of each kind: the numbers found, and every byte of every lent buffer.

use crate::case::Case;
use crate::oracles::{self, Made};
use crate::{expected, found, library};
use oracle::difference::{self, BEFORE};
use oracle::hex::shown;
use oracle::tally::Tally;

#[derive(Default)]
pub struct Comparison {
    pub tally: Tally,
}

/// A call of the library.
type Call = fn(&Case, &mut crate::case::Lent, &mut [u64]);

impl Comparison {
    /// A case with a step run and a tick, and with a burst.
    pub fn both(&mut self, case: &Case) -> Result<(), String> {
        let made = oracles::run(case);
        expected::count(&mut self.tally, case, &made);
        expected::count_run(&mut self.tally, &made);
        same(case, &made, &found::RUN, library::run).map_err(|text| told("run", case, &text))?;
        let made = oracles::burst(case);
        expected::count(&mut self.tally, case, &made);
        expected::count_burst(&mut self.tally, &made);
        same(case, &made, &found::BURST, library::burst).map_err(|text| told("burst", case, &text))
    }
}

fn same(case: &Case, made: &Made, names: &[&str], call: Call) -> Result<(), String> {
    let mut lent = case.lent.clone();
    let mut got = vec![BEFORE; case.found(names.len())];
    call(case, &mut lent, &mut got);
    let wanted = difference::list(&made.numbers, got.len());
    let (before, left) = (&case.lent, &made.lent);
    difference::found(names, &wanted, &got)?;
    difference::buffer("answers", &before.answers, &left.answers, &lent.answers)?;
    difference::buffer("memory", &before.memory, &left.memory, &lent.memory)?;
    difference::buffer("output", &before.output, &left.output, &lent.output)?;
    difference::buffer("answer list", &before.list, &left.list, &lent.list)
}

fn told(kind: &str, case: &Case, text: &str) -> String {
    format!(
        "{kind}, base {:x} hex, window {}, {:?}, count {}, allowance {}, memory of {}, an output \
         of {}, an answer list of {}\n{text}\nthe memory: {}\nthe events: {}\nthe store: {}\n\
         starts {:?}, lengths {:?}, an answer list of {}",
        case.base,
        case.window,
        case.counters,
        case.count,
        case.allowance,
        case.lent.memory.len(),
        case.lent.output.len(),
        case.lent.answers.len(),
        shown(&case.lent.memory),
        shown(&case.events),
        shown(&case.store),
        case.starts,
        case.lengths,
        case.lent.list.len()
    )
}
