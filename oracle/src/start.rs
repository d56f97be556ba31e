//! Runs a program in a folder and compares all that it writes and leaves.

use crate::files::folder::{self, Folder};
use crate::files::Contents;
use crate::program;
use std::path::Path;

/// The most bytes of an output that a report shows.
const SHOWN: usize = 2_000;

/// What a program is started with.
pub struct Start<'input> {
    pub arguments: Vec<String>,
    pub input: &'input [u8],
    pub before: Contents,
}

impl Start<'_> {
    /// Runs the program; its output and the folder behind it must be these.
    pub fn ends(
        &self,
        program: &Path,
        folder: &Folder,
        output: &str,
        after: &Contents,
    ) -> Result<(), String> {
        folder.set(&self.before);
        let path = folder.path();
        let run = match self.before.longest {
            None => program::run_in(path, program, &self.arguments, &[self.input]),
            Some(most) => {
                let words = limited(program, &self.arguments, most);
                program::run_in(path, Path::new("/bin/sh"), &words, &[self.input])
            }
        };
        let told = |text: String| {
            let words = self.arguments.join("' '");
            format!("{} '{words}'\n{text}", program.display())
        };
        if let Some(fault) = run.fault {
            return Err(told(fault));
        }
        if run.output != output.as_bytes() {
            return Err(told(lines(output.as_bytes(), &run.output)));
        }
        match folder::difference(after, &folder.contents()) {
            Some(difference) => Err(told(difference)),
            None => Ok(()),
        }
    }
}

/// The words that let a shell start a program none of whose files can be longer, in units of 512
/// bytes. It is not ended by that but told, as of a full disk.
fn limited(program: &Path, arguments: &[String], most: usize) -> Vec<String> {
    let command = format!("trap '' XFSZ; ulimit -f {}; exec \"$0\" \"$@\"", most / 512);
    let program = program.to_string_lossy().into_owned();
    let words = ["-c".to_string(), command, program];
    words.into_iter().chain(arguments.iter().cloned()).collect()
}

/// The first line that differs.
fn lines(wanted: &[u8], got: &[u8]) -> String {
    let split = |text: &'_ [u8]| -> Vec<String> {
        text.split_inclusive(|byte| *byte == b'\n')
            .map(|line| line.escape_ascii().to_string())
            .collect()
    };
    let (wanted, got) = (split(wanted), split(got));
    let same = wanted.iter().zip(&got).take_while(|(w, g)| w == g).count();
    let shown = |lines: &[String]| match lines.get(same) {
        Some(line) => line.chars().take(SHOWN).collect(),
        None => "<nothing more>".to_string(),
    };
    format!(
        "its line {} differs\nthe oracle:  {}\nthe program: {}",
        same + 1,
        shown(&wanted),
        shown(&got)
    )
}
