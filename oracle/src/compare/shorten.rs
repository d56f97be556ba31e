//! Shortens a script on which a program differs, for the report.

use super::{difference, shown, Difference, Script};
use crate::tally::Tally;
use std::path::Path;

/// What to tell about a difference: the shortened script and both lines.
pub fn report(program: &Path, script: &Script, found: &Difference) -> String {
    let (short, last) = shorten(program, script, found);
    let lines: String = short.iter().map(|line| shown(line) + "\n").collect();
    format!("the script, shortened:\n{lines}it differs {last}\n")
}

/// Drops lines from a script while the program still differs on it.
fn shorten(program: &Path, script: &Script, found: &Difference) -> (Script, Difference) {
    let (mut short, mut last) = head(program, script.clone(), found.clone());
    let mut chunk = short.len();
    while chunk > 0 {
        let before = short.len();
        let mut start = 0;
        while start < short.len() {
            let mut fewer = short.clone();
            fewer.drain(start..(start + chunk).min(short.len()));
            match differs(program, &fewer) {
                Some(difference) => (short, last) = head(program, fewer, difference),
                None => start += chunk,
            }
        }
        // A line dropped may free one before it, so single lines are tried until none goes.
        if chunk > 1 || short.len() == before {
            chunk /= 2;
        }
    }
    (short, last)
}

fn differs(program: &Path, script: &Script) -> Option<Difference> {
    difference(program, script, &mut Tally::default())
}

/// The script up to its difference, if that shows it; one that breaks down may have kept back what
/// it wrote before.
fn head(program: &Path, script: Script, found: Difference) -> (Script, Difference) {
    let lines = script.len().min(found.place + 1);
    let head = script[..lines].to_vec();
    match differs(program, &head) {
        Some(difference) => (head, difference),
        None => (script, found),
    }
}

#[cfg(test)]
mod tests {
    use super::*;

    /// A bench that answers each line with itself.
    const ECHO: &str = "cat";

    #[test]
    fn a_difference_is_found_and_shortened() {
        let script = ["# one", "# two", "line"].map(|line| line.into()).to_vec();
        let found = difference(Path::new(ECHO), &script, &mut Tally::default()).unwrap();
        assert_eq!(found.place, 2);
        let report = report(Path::new(ECHO), &script, &found);
        assert!(report.starts_with("the script, shortened:\nline\nit differs at line 1\n"));
        assert!(report.ends_with("the oracle: line 0\nthe bench:  line\n"));
    }

    #[test]
    fn a_burst_is_shown_as_it_was_given() {
        let silent = Path::new("true");
        let script = ["# one", "burst 2 00fF 0 2 0 3"].map(|line| line.into());
        let script = script.to_vec();
        let found = difference(silent, &script, &mut Tally::default()).unwrap();
        let report = report(silent, &script, &found);
        assert!(report.starts_with("the script, shortened:\nburst 2 00fF 0 2 0 3\nit differs"));
        assert!(report.contains("the oracle: burst 0 3 16\n"));
    }
}
