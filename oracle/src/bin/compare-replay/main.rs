//! Compares the programs that record and replay a day with the oracle: what they write, and every
//! file that is there when they have ended.

mod compare;
mod expected;
mod large;
mod lengths;
mod limits;
mod names;
mod records;
mod replays;
mod scripts;
mod targets;

use compare::Comparison;
use oracle::files::folder::Folder;
use oracle::runs::{self, Extent, Program};
use oracle::tally::Tally;
use std::path::PathBuf;
use std::process::ExitCode;

const USAGE: &str = "usage: compare-replay PATH-TO-RECORD PATH-TO-REPLAY [--cases N] [--seed S]\n\
                     or:    compare-replay PATH-TO-RECORD PATH-TO-REPLAY --seconds N";

fn main() -> ExitCode {
    let words: Vec<String> = std::env::args().skip(1).collect();
    let Some((record, replay, extent)) = arguments(&words) else {
        eprintln!("{USAGE}");
        return ExitCode::from(2);
    };
    let mut comparison = Comparison {
        record,
        replay,
        folder: Folder::new("compare-replay"),
        tally: Tally::default(),
    };
    runs::compare(&mut comparison, extent)
}

fn arguments(words: &[String]) -> Option<(PathBuf, PathBuf, Extent)> {
    let [record, replay, options @ ..] = words else {
        return None;
    };
    // The programs run in a folder of their own, so their names must hold from there on.
    let program = |path: &String| std::path::absolute(path).ok();
    let extent = runs::extent::<Comparison>(options)?;
    Some((program(record)?, program(replay)?, extent))
}

impl runs::Comparison for Comparison {
    const PROGRAM: Program = Program {
        name: "compare-replay",
        // Random scripts, and as many traces.
        cases: 500,
        expect: expected::expect,
        least: expected::least,
    };

    fn tally(&mut self) -> &mut Tally {
        &mut self.tally
    }

    fn made_by_hand(&mut self) -> Result<(), String> {
        records::made_by_hand(self)?;
        limits::compare(self)?;
        lengths::compare(self)?;
        names::compare(self)?;
        replays::windows(self)?;
        large::compare(self)
    }

    /// The random script and the random trace of a seed.
    fn random(&mut self, seed: u64) -> Result<(), String> {
        records::random(self, seed)?;
        replays::random(self, seed)
    }
}
