//! The folder that the programs work in, and what is in it.

use super::{Contents, Entry};
use std::fs::{self, DirBuilder};
use std::os::unix::fs::{symlink, DirBuilderExt};
use std::path::{Path, PathBuf};

/// The rights of a folder into which no file can be made.
const CLOSED: u32 = 0o555;

/// A folder of our own, gone at the end.
pub struct Folder {
    path: PathBuf,
}

impl Folder {
    /// The folder of the program of this name, below the one for temporary files.
    pub fn new(program: &str) -> Folder {
        let name = format!("{program}-{}", std::process::id());
        // Without links, as the programs see it.
        let path = std::env::temp_dir()
            .canonicalize()
            .expect("there is a folder for temporary files")
            .join(name);
        fs::create_dir_all(&path).expect("a folder for temporary files takes one more");
        Folder { path }
    }

    pub fn path(&self) -> &Path {
        &self.path
    }

    /// Nothing yet, for this folder.
    pub fn empty(&self) -> Contents {
        let home = self.path.to_str();
        Contents::new(home.expect("the folder for temporary files has a plain name"))
    }

    /// Makes the folder hold this and nothing else.
    pub fn set(&self, contents: &Contents) {
        self.clear();
        // A folder's name comes before those of the files in it.
        for (name, entry) in &contents.entries {
            let path = self.path.join(name);
            match entry {
                Entry::Folder => fs::create_dir(path),
                Entry::Closed => DirBuilder::new().mode(CLOSED).create(path),
                Entry::File(bytes) => fs::write(path, bytes),
                Entry::Link(to) => symlink(to, path),
            }
            .expect("the folder is our own");
        }
    }

    pub fn contents(&self) -> Contents {
        let mut contents = self.empty();
        add(&self.path, "", &mut contents);
        contents
    }

    /// Whether a folder without the right to write refuses this user: there are some who may write
    /// everywhere.
    pub fn can_be_closed(&self) -> bool {
        let mut closed = self.empty();
        closed.put("closed", Entry::Closed);
        self.set(&closed);
        fs::write(self.path.join("closed/tried"), b"").is_err()
    }

    fn clear(&self) {
        fs::remove_dir_all(&self.path).expect("the folder is our own");
        fs::create_dir(&self.path).expect("the folder is our own");
    }
}

impl Drop for Folder {
    fn drop(&mut self) {
        // What cannot be removed is left to the system.
        let _ = fs::remove_dir_all(&self.path);
    }
}

fn add(folder: &Path, front: &str, contents: &mut Contents) {
    for entry in fs::read_dir(folder).expect("the folder is our own") {
        let entry = entry.expect("the folder is our own");
        let name = format!("{front}{}", entry.file_name().to_string_lossy());
        let path = entry.path();
        let kind = entry.file_type().expect("the folder is our own");
        let entry = if kind.is_symlink() {
            let to = fs::read_link(path).expect("the folder is our own");
            Entry::Link(to.to_string_lossy().into_owned())
        } else if kind.is_dir() {
            add(&path, &format!("{name}/"), contents);
            let about = fs::metadata(path).expect("the folder is our own");
            match about.permissions().readonly() {
                true => Entry::Closed,
                false => Entry::Folder,
            }
        } else {
            Entry::File(fs::read(path).expect("the folder is our own"))
        };
        contents.put(name, entry);
    }
}

/// The first way in which a folder is not as it should be.
pub fn difference(wanted: &Contents, got: &Contents) -> Option<String> {
    let (wanted, got) = (&wanted.entries, &got.entries);
    if let Some(name) = got.keys().find(|name| !wanted.contains_key(*name)) {
        return Some(format!("{name:?} should not be there"));
    }
    for (name, wanted) in wanted {
        let told = match (wanted, got.get(name)) {
            (_, None) => "is missing".to_string(),
            (wanted, Some(got)) if wanted == got => continue,
            (Entry::File(wanted), Some(Entry::File(got))) => bytes(wanted, got),
            (wanted, Some(got)) => format!("is {}, not {}", kind(got), kind(wanted)),
        };
        return Some(format!("{name:?} {told}"));
    }
    None
}

fn kind(entry: &Entry) -> String {
    match entry {
        Entry::Folder => "a folder".to_string(),
        Entry::Closed => "a closed folder".to_string(),
        Entry::File(_) => "a file".to_string(),
        Entry::Link(to) => format!("a link to {to:?}"),
    }
}

fn bytes(wanted: &[u8], got: &[u8]) -> String {
    let same = wanted.iter().zip(got).take_while(|(w, g)| w == g).count();
    format!(
        "has {} bytes, not {}, and differs from {same} on: {:02x?} should be {:02x?}",
        got.len(),
        wanted.len(),
        got.get(same),
        wanted.get(same)
    )
}

#[cfg(test)]
mod tests {
    use super::*;

    fn of(files: &[(&str, &[u8])]) -> Contents {
        let mut contents = Contents::default();
        for (name, bytes) in files {
            contents.put(*name, Entry::File(bytes.to_vec()));
        }
        contents
    }

    #[test]
    fn differences_are_told() {
        let one = of(&[("a", &[1, 2])]);
        assert_eq!(difference(&one, &one), None);
        let told = |got: &Contents| difference(&one, got).unwrap();
        assert_eq!(told(&of(&[])), "\"a\" is missing");
        assert_eq!(
            told(&of(&[("a", &[1, 2]), ("b", &[])])),
            "\"b\" should not be there"
        );
        assert!(told(&of(&[("a", &[1, 3])])).contains("differs from 1 on"));
        assert!(told(&of(&[("a", &[1])])).contains("has 1 bytes, not 2"));
        let mut other = Contents::default();
        other.put("a", Entry::Folder);
        assert_eq!(told(&other), "\"a\" is a folder, not a file");
        other.put("a", Entry::Link("b".to_string()));
        assert_eq!(told(&other), "\"a\" is a link to \"b\", not a file");
    }

    #[test]
    fn what_is_put_there_is_there() {
        let folder = Folder::new("oracle-files");
        let mut contents = of(&[("a", &[1]), ("b/c", &[2, 3])]);
        contents.put("b", Entry::Folder);
        contents.put("closed", Entry::Closed);
        contents.put("d", Entry::Link("b/c".to_string()));
        contents.put("e", Entry::Link("none".to_string()));
        folder.set(&contents);
        assert_eq!(difference(&contents, &folder.contents()), None);
        folder.set(&folder.empty());
        assert_eq!(folder.contents(), folder.empty());
    }
}
