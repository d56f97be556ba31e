//! Compares a bench console program with the oracle's console.

pub mod answers;
mod bursts;
mod came;
mod counters;
mod hashes;
mod interrupts;
mod polling;
mod readings;
mod reasons;
mod shorten;

pub use shorten::report;

use crate::console::Console;
use crate::program;
use crate::tally::Tally;
use std::fmt;
use std::path::Path;
use std::time::Duration;

/// Console lines without their line feeds.
pub type Script = Vec<Vec<u8>>;

/// Where a program first differs from the oracle.
#[derive(Clone)]
pub struct Difference {
    /// The place in the script of the line that was answered otherwise.
    pub place: usize,
    wanted: String,
    got: String,
}

impl fmt::Display for Difference {
    fn fmt(&self, out: &mut fmt::Formatter) -> fmt::Result {
        writeln!(out, "at line {}", self.place + 1)?;
        writeln!(out, "the oracle: {}", self.wanted)?;
        write!(out, "the bench:  {}", self.got)
    }
}

/// Runs the program on a script; the tally counts what the oracle answers.
pub fn difference(program: &Path, script: &Script, tally: &mut Tally) -> Option<Difference> {
    let mut input: Vec<u8> = script
        .iter()
        .flat_map(|line| [line.as_slice(), b"\n"].concat())
        .collect();
    // A last line counts without its line feed too, so every other script goes without it.
    if script.len() % 2 == 1 {
        input.pop();
    }
    let run = program::run(program, &[&input], Duration::ZERO);
    let mut written = run.output.split_inclusive(|byte| *byte == b'\n');
    let mut console = Console::new();
    let mut watch = polling::Watch::default();
    let mut reasons = reasons::Watch::default();
    let mut interrupts = interrupts::Watch::default();
    let mut counters = counters::Watch::default();
    for (place, line) in script.iter().enumerate() {
        reasons.before(line, &console);
        let Some(wanted) = console.take(line) else {
            continue;
        };
        answers::count(tally, line, &wanted);
        hashes::count(tally, line, &wanted, &console.bench.filter());
        watch.count(tally, line, &wanted, &console);
        reasons.count(tally, line, &wanted, &console);
        interrupts.count(tally, line, &wanted, &console);
        counters.count(tally, line, &wanted, &console);
        let got = written.next().unwrap_or(b"");
        if got != format!("{wanted}\n").as_bytes() {
            let got = match got {
                b"" => "<nothing>".to_string(),
                _ => shown(got),
            };
            let fault = run.fault.map(|fault| format!(" ({fault})"));
            return Some(Difference {
                place,
                wanted,
                got: got + &fault.unwrap_or_default(),
            });
        }
    }
    let got = match (written.next(), run.fault) {
        (Some(line), _) => shown(line),
        (None, Some(fault)) => fault,
        (None, None) => return None,
    };
    Some(Difference {
        place: script.len().saturating_sub(1),
        wanted: "<nothing more, and a good end>".to_string(),
        got,
    })
}

/// A line as it is printed: without its line feed, other characters than plain ones escaped.
fn shown(line: &[u8]) -> String {
    let line = line.strip_suffix(b"\n").unwrap_or(line);
    line.escape_ascii().to_string()
}

#[cfg(test)]
mod tests {
    use super::*;

    fn script(text: &str) -> Script {
        text.split(',')
            .map(|line| line.as_bytes().to_vec())
            .collect()
    }

    /// A bench that answers each line with itself.
    const ECHO: &str = "cat";

    #[test]
    fn a_missing_and_a_spare_line_are_differences() {
        let silent = difference(Path::new("true"), &script("state"), &mut Tally::default());
        assert_eq!(silent.unwrap().got, "<nothing>");
        let spare = difference(
            Path::new(ECHO),
            &script("# a comment"),
            &mut Tally::default(),
        );
        assert_eq!(spare.unwrap().got, "# a comment");
    }

    #[test]
    fn a_bad_end_is_a_difference() {
        let ended = difference(
            Path::new("false"),
            &script("# a comment"),
            &mut Tally::default(),
        );
        assert!(ended.unwrap().got.starts_with("it ended with"));
    }
}
