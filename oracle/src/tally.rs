//! Counts by name what a comparison has met, so that a kind never met is seen.

use std::collections::BTreeMap;
use std::fmt;

#[derive(Default)]
pub struct Tally {
    counts: BTreeMap<String, usize>,
}

impl Tally {
    /// A kind that must be met; it stands at 0 until it is.
    pub fn expect(&mut self, kind: impl Into<String>) {
        self.counts.entry(kind.into()).or_default();
    }

    pub fn met(&mut self, kind: impl Into<String>) {
        *self.counts.entry(kind.into()).or_default() += 1;
    }

    /// How often a kind was met.
    pub fn count(&self, kind: &str) -> usize {
        self.counts.get(kind).copied().unwrap_or_default()
    }

    /// The kinds met less often than `least` asks of each, with both counts.
    pub fn missing(&self, least: impl Fn(&str) -> usize) -> Vec<String> {
        self.counts
            .iter()
            .filter(|(kind, count)| **count < least(kind))
            .map(|(kind, count)| format!("{kind} ({count} times, not {})", least(kind)))
            .collect()
    }
}

impl fmt::Display for Tally {
    fn fmt(&self, out: &mut fmt::Formatter) -> fmt::Result {
        for (kind, count) in &self.counts {
            writeln!(out, "{count:>9}  {kind}")?;
        }
        Ok(())
    }
}
