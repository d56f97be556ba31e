//! Compares the programs that export and import a capture with the oracle: what they write, and every
//! file that is there when they have ended.

mod compare;
mod expected;
mod exports;
mod imports;
mod large;
mod lengths;
mod names;
mod orders;
mod targets;

use compare::Comparison;
use oracle::files::folder::Folder;
use oracle::runs::{self, Extent, Program};
use oracle::tally::Tally;
use std::path::PathBuf;
use std::process::ExitCode;

const USAGE: &str =
    "usage: compare-captures PATH-TO-EXPORT PATH-TO-IMPORT [--cases N] [--seed S]\n\
                     or:    compare-captures PATH-TO-EXPORT PATH-TO-IMPORT --seconds N";

fn main() -> ExitCode {
    let words: Vec<String> = std::env::args().skip(1).collect();
    let Some((export, import, extent)) = arguments(&words) else {
        eprintln!("{USAGE}");
        return ExitCode::from(2);
    };
    let mut comparison = Comparison {
        export,
        import,
        folder: Folder::new("compare-captures"),
        tally: Tally::default(),
    };
    runs::compare(&mut comparison, extent)
}

fn arguments(words: &[String]) -> Option<(PathBuf, PathBuf, Extent)> {
    let [export, import, options @ ..] = words else {
        return None;
    };
    // The programs run in a folder of their own, so their names must hold from there on.
    let program = |path: &String| std::path::absolute(path).ok();
    let extent = runs::extent::<Comparison>(options)?;
    Some((program(export)?, program(import)?, extent))
}

impl runs::Comparison for Comparison {
    const PROGRAM: Program = Program {
        name: "compare-captures",
        // Random days, and as many captures.
        cases: 250,
        expect: expected::expect,
        least: expected::least,
    };

    fn tally(&mut self) -> &mut Tally {
        &mut self.tally
    }

    fn made_by_hand(&mut self) -> Result<(), String> {
        targets::compare(self)?;
        names::compare(self)?;
        orders::compare(self)?;
        lengths::compare(self)?;
        imports::made_by_hand(self)?;
        large::compare(self)
    }

    /// The random day and the random capture of a seed.
    fn random(&mut self, seed: u64) -> Result<(), String> {
        exports::random(self, seed)?;
        imports::random(self, seed)
    }
}
