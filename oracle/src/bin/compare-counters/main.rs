//! Compares the model's counters with the oracle on a bench whose counters start near their stop: by
//! events one behind the other and then a step run and a tick, or a burst. Every number found and
//! every byte of every lent buffer.

mod case;
mod compare;
mod expected;
mod found;
mod hand_made;
mod library;
mod made;
mod oracles;

use case::Case;
use compare::Comparison;
use oracle::runs::{self, Program};
use oracle::tally::Tally;
use std::process::ExitCode;

const USAGE: &str = "usage: compare-counters [--cases N] [--seed S] | compare-counters --seconds N";

fn main() -> ExitCode {
    let words: Vec<String> = std::env::args().skip(1).collect();
    match runs::extent::<Comparison>(&words) {
        Some(extent) => runs::compare(&mut Comparison::default(), extent),
        None => {
            eprintln!("{USAGE}");
            ExitCode::from(2)
        }
    }
}

impl runs::Comparison for Comparison {
    const PROGRAM: Program = Program {
        name: "compare-counters",
        // Each is played twice: with a step run and a tick behind its events, and with a burst.
        cases: 40_000,
        expect: expected::expect,
        least: expected::least,
    };

    fn tally(&mut self) -> &mut Tally {
        &mut self.tally
    }

    fn made_by_hand(&mut self) -> Result<(), String> {
        for (place, case) in hand_made::cases().iter().enumerate() {
            self.both(case)
                .map_err(|text| format!("case {place} made by hand\n{text}"))?;
        }
        Ok(())
    }

    fn random(&mut self, seed: u64) -> Result<(), String> {
        self.both(&Case::random(seed))
    }
}
