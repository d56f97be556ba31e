//! Compares the model's capture functions with the oracle: export and import, every number found and
//! every byte of every lent buffer; and that each gives back what the other was given.

mod compare;
mod expected;
mod found;
mod hand_made;
mod library;
mod there_and_back;

use compare::Comparison;
use oracle::films::{self, FrameList, Rooms};
use oracle::random::Random;
use oracle::runs::{self, Program};
use oracle::tally::Tally;
use std::process::ExitCode;

const USAGE: &str = "usage: compare-capture [--cases N] [--seed S] | compare-capture --seconds N";

fn main() -> ExitCode {
    let words: Vec<String> = std::env::args().skip(1).collect();
    match runs::extent::<Comparison>(&words) {
        Some(extent) => runs::compare(&mut Comparison::default(), extent),
        None => {
            eprintln!("{USAGE}");
            ExitCode::from(2)
        }
    }
}

impl runs::Comparison for Comparison {
    const PROGRAM: Program = Program {
        name: "compare-capture",
        // Random captures to be imported, and as many lists to be exported.
        cases: 12_000,
        expect: expected::expect,
        least: expected::least,
    };

    fn tally(&mut self) -> &mut Tally {
        &mut self.tally
    }

    fn made_by_hand(&mut self) -> Result<(), String> {
        hand_made::compare(self)
    }

    /// The random capture and the random list of a seed.
    fn random(&mut self, seed: u64) -> Result<(), String> {
        let random = &mut Random::new(!seed);
        let film = films::random(seed);
        let rooms = Rooms::new(&film, random);
        self.found = found_length(random);
        self.import(&film, &rooms)?;
        self.found = found_length(random);
        self.export(&FrameList::random(seed))
    }
}

/// How long the list of the numbers found is: most often as many as there are.
fn found_length(random: &mut Random) -> usize {
    match random.below(10) {
        0 => random.below(3),
        1 => random.between(4, 6),
        _ => found::FOUND.len(),
    }
}
