//! Compares the model's trace functions with the oracle: reading, writing and replay, every number
//! found and every byte of every lent buffer.

mod compare;
mod expected;
mod found;
mod large;
mod library;

use compare::Comparison;
use oracle::random::Random;
use oracle::runs::{self, Program};
use oracle::tally::Tally;
use oracle::tapes::{self, Lent, List, Tape};
use std::process::ExitCode;

const USAGE: &str = "usage: compare-trace [--cases N] [--seed S] | compare-trace --seconds N";

fn main() -> ExitCode {
    let words: Vec<String> = std::env::args().skip(1).collect();
    match runs::extent::<Comparison>(&words) {
        Some(extent) => runs::compare(&mut Comparison::default(), extent),
        None => {
            eprintln!("{USAGE}");
            ExitCode::from(2)
        }
    }
}

impl runs::Comparison for Comparison {
    const PROGRAM: Program = Program {
        name: "compare-trace",
        // Random traces; there is a list to write for every second one.
        cases: 6_000,
        expect: expected::expect,
        least: expected::least,
    };

    fn tally(&mut self) -> &mut Tally {
        &mut self.tally
    }

    /// Events and headers cut at every place, every fault with every other, frames whose length
    /// takes more than two bytes, and the longest traces.
    fn made_by_hand(&mut self) -> Result<(), String> {
        let mut random = Random::new(0x7A9E);
        let mut tapes = tapes::cut_headers(&mut random);
        tapes.extend(tapes::cut_events(&mut random));
        tapes.extend(tapes::pairs_of_faults(&mut random));
        tapes.extend(tapes::long_frames(&mut random));
        for (place, tape) in tapes.iter().enumerate() {
            trace(self, tape, &mut random)
                .map_err(|difference| format!("trace {place} made by hand\n{difference}"))?;
        }
        large::compare(self)
    }

    /// The random trace of a seed, and for every second one a list.
    fn random(&mut self, seed: u64) -> Result<(), String> {
        trace(self, &tapes::random(seed), &mut Random::new(!seed))?;
        match seed.is_multiple_of(2) {
            true => self.write(&List::random(seed)),
            false => Ok(()),
        }
    }
}

/// Reads and replays one trace, each lent its own.
fn trace(comparison: &mut Comparison, tape: &Tape, random: &mut Random) -> Result<(), String> {
    comparison.tally.met("traces");
    comparison.tally.met(expected::kind_name(&tape.kind));
    for feature in tapes::features(&tape.bytes) {
        comparison.tally.met(expected::feature_name(feature));
    }
    let lent = Lent::new(tape, random);
    comparison.read(tape, &lent.room)?;
    comparison.found = match random.below(12) {
        0 => random.below(found::REPLAY.len()),
        1 => found::REPLAY.len() + random.between(1, 4),
        _ => found::REPLAY.len(),
    };
    comparison.replay(tape, &Lent::new(tape, random))
}
