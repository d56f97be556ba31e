//! Runs a program in the folder and compares all that it writes and leaves.

use oracle::files::folder::Folder;
use oracle::files::Contents;
use oracle::programs::{record, replay, Ended};
pub use oracle::start::Start;
use oracle::tally::Tally;
use std::path::{Path, PathBuf};

pub struct Comparison {
    pub record: PathBuf,
    pub replay: PathBuf,
    pub folder: Folder,
    pub tally: Tally,
}

impl Comparison {
    /// Runs `record`: what it writes and leaves must be what the oracle says.
    pub fn record(&self, start: &Start) -> Result<Ended, String> {
        let ended = record::run(&start.arguments, start.input, &start.before);
        self.run(&self.record, start, &ended.output, &ended.after)?;
        Ok(ended)
    }

    /// Runs `replay`, which makes and changes nothing. Gives what it wrote.
    pub fn replay(&self, start: &Start) -> Result<String, String> {
        let output = replay::run(&start.arguments, &start.before);
        self.run(&self.replay, start, &output, &start.before)?;
        Ok(output)
    }

    /// Runs a program; its output and the folder behind it must be these.
    pub fn run(
        &self,
        program: &Path,
        start: &Start,
        output: &str,
        after: &Contents,
    ) -> Result<(), String> {
        start.ends(program, &self.folder, output, after)
    }
}
