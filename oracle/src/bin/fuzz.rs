//! Compares a bench console program with the oracle on fresh random scripts for a given time.

use oracle::compare::{self, Script};
use oracle::random::Random;
use oracle::runs;
use oracle::scripts;
use oracle::tally::Tally;
use std::path::Path;
use std::process::ExitCode;

/// Scripts joined in one run of the program: for the bench, for the interrupt controllers, and for
/// ticks and counters.
const SCRIPTS_A_RUN: usize = 20;
const INTERRUPT_SCRIPTS_A_RUN: usize = 10;
const TICK_SCRIPTS_A_RUN: usize = 4;

fn main() -> ExitCode {
    let words: Vec<String> = std::env::args().skip(1).collect();
    let [path, seconds] = &words[..] else {
        return usage();
    };
    let Ok(seconds) = seconds.parse() else {
        return usage();
    };
    let mut tally = Tally::default();
    let mut made = 0;
    for seed in runs::fresh_seeds(seconds) {
        let mut random = Random::new(seed);
        let mut script = Script::new();
        for _ in 0..SCRIPTS_A_RUN {
            script.extend(scripts::random_script(&mut random));
        }
        for _ in 0..INTERRUPT_SCRIPTS_A_RUN {
            script.extend(scripts::interrupts::random_script(&mut random));
        }
        for _ in 0..TICK_SCRIPTS_A_RUN {
            script.extend(scripts::ticks::random_script(&mut random));
        }
        if let Some(found) = compare::difference(Path::new(path), &script, &mut tally) {
            print!("{}", compare::report(Path::new(path), &script, &found));
            println!("fuzz: differs at seed {seed}");
            return ExitCode::FAILURE;
        }
        made += 1;
    }
    println!("{tally}fuzz: {made} runs, no difference");
    ExitCode::SUCCESS
}

fn usage() -> ExitCode {
    eprintln!("usage: fuzz PATH-TO-BENCH SECONDS");
    ExitCode::from(2)
}
