//! Compares the model's C functions and its verdict program with the oracle, frame by frame.

mod cases;
mod compare;
mod expected;
mod filters;
mod hashes;
mod host;
mod vectors;

use compare::Comparison;
use oracle::random::Random;
use oracle::runs;
use oracle::tally::Tally;
use std::process::ExitCode;

fn main() -> ExitCode {
    let words: Vec<String> = std::env::args().skip(1).collect();
    let [program] = &words[..] else {
        eprintln!("usage: compare-frames PATH-TO-VERDICT");
        return ExitCode::from(2);
    };
    let mut comparison = Comparison {
        program: program.into(),
        tally: Tally::default(),
    };
    if let Err(difference) = compare_all(&mut comparison) {
        println!("{difference}\ncompare-frames: differs");
        return ExitCode::FAILURE;
    }
    let tally = &comparison.tally;
    runs::end("compare-frames", tally, expected::least, "no difference")
}

fn compare_all(comparison: &mut Comparison) -> Result<(), String> {
    let mut random = Random::new(0x70CF);
    expected::expect(&mut comparison.tally);
    vectors::compare(comparison)?;
    hashes::compare(comparison)?;
    cases::random_frames(comparison, &mut random)?;
    cases::boundary_inputs(comparison, &mut random)
}
