//! Compares a bench console program with the oracle on scripts made by hand and random ones.

use oracle::compare::{self, Script};
use oracle::random::Random;
use oracle::runs;
use oracle::scripts;
use oracle::tally::Tally;
use std::path::Path;
use std::process::ExitCode;

/// Console lines for the bench, those for the interrupt controllers beside it, those for ticks and
/// counters, and those in one run of the program.
const CALLS: usize = 400_000;
const INTERRUPT_CALLS: usize = 250_000;
const TICK_CALLS: usize = 100_000;
const CALLS_A_RUN: usize = 4_000;

fn main() -> ExitCode {
    let words: Vec<String> = std::env::args().skip(1).collect();
    let (path, calls, seed) = match arguments(&words) {
        Some(found) => found,
        None => {
            eprintln!("usage: compare-console PATH-TO-BENCH [--calls N] [--seed S]");
            return ExitCode::from(2);
        }
    };
    let mut tally = Tally::default();
    compare::answers::expect(&mut tally);
    for script in batches(calls, seed) {
        if let Some(found) = compare::difference(Path::new(path), &script, &mut tally) {
            print!("{}", compare::report(Path::new(path), &script, &found));
            return ExitCode::FAILURE;
        }
    }
    let least = |kind: &str| least(kind, calls);
    runs::end("compare-console", &tally, least, "no difference")
}

/// How often a kind must be met: in a shorter comparison by its share.
fn least(kind: &str, calls: usize) -> usize {
    let whole = compare::answers::least(kind);
    (whole * calls / CALLS).clamp(1, whole)
}

fn arguments(words: &[String]) -> Option<(&str, usize, u64)> {
    let (path, options) = words.split_first()?;
    let [calls, seed] = runs::options(options, ["--calls", "--seed"], [CALLS as u64, 1])?;
    Some((path, calls as usize, seed))
}

/// The scripts made by hand, then random ones for the bench, and for the interrupt controllers and
/// the ticks by their shares.
fn batches(calls: usize, seed: u64) -> impl Iterator<Item = Script> {
    let share = |whole| calls * whole / CALLS;
    let bench = random_batches(calls, seed, scripts::random_script);
    let interrupts = random_batches(
        share(INTERRUPT_CALLS),
        seed,
        scripts::interrupts::random_script,
    );
    let ticks = random_batches(share(TICK_CALLS), seed, scripts::ticks::random_script);
    scripts::hand_made::scripts()
        .into_iter()
        .chain(bench)
        .chain(interrupts)
        .chain(ticks)
}

/// Random scripts joined to long ones until there are enough lines.
fn random_batches(
    calls: usize,
    seed: u64,
    script: fn(&mut Random) -> Script,
) -> impl Iterator<Item = Script> {
    let mut random = Random::new(seed);
    let mut made = 0;
    std::iter::from_fn(move || {
        if made >= calls {
            return None;
        }
        let mut batch = Script::new();
        while batch.len() < CALLS_A_RUN {
            batch.extend(script(&mut random));
        }
        made += batch.len();
        Some(batch)
    })
}
