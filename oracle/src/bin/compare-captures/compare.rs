//! Runs a program in the folder and compares all that it writes and leaves.

use crate::expected;
use oracle::files::folder::Folder;
use oracle::files::{Contents, Entry};
use oracle::programs::{export_capture, import_capture, Ended};
use oracle::start::Start;
use oracle::tally::Tally;
use std::path::PathBuf;

/// The names of the files that a program is given: the trace and its memory, or the capture.
pub const IN: &str = "in";
pub const ALSO: &str = "also";
/// And of the file that it makes.
pub const OUT: &str = "out";

pub struct Comparison {
    pub export: PathBuf,
    pub import: PathBuf,
    pub folder: Folder,
    pub tally: Tally,
}

impl Comparison {
    /// Runs `export_capture`: what it writes and leaves must be what the oracle says.
    pub fn export(&mut self, words: &[&str], before: &Contents) -> Result<Ended, String> {
        let start = start(words, before);
        let ended = export_capture::run(&start.arguments, before);
        start.ends(&self.export, &self.folder, &ended.output, &ended.after)?;
        expected::count(&mut self.tally, "export", &ended.output);
        Ok(ended)
    }

    /// Runs `import_capture` so.
    pub fn import(&mut self, words: &[&str], before: &Contents) -> Result<Ended, String> {
        let start = start(words, before);
        let ended = import_capture::run(&start.arguments, before);
        start.ends(&self.import, &self.folder, &ended.output, &ended.after)?;
        expected::count(&mut self.tally, "import", &ended.output);
        Ok(ended)
    }

    /// The folder with these files and nothing else.
    pub fn with(&self, files: &[(&str, &[u8])]) -> Contents {
        let mut contents = self.folder.empty();
        for (name, bytes) in files {
            contents.put(*name, Entry::File(bytes.to_vec()));
        }
        contents
    }
}

fn start(words: &[&str], before: &Contents) -> Start<'static> {
    Start {
        arguments: words.iter().map(|word| word.to_string()).collect(),
        input: b"",
        before: before.clone(),
    }
}
