//! A folder and what is in it, as far as the programs make and read files there: which file a name
//! leads to, and where one can be made.

pub mod folder;
pub mod target;
#[cfg(test)]
mod tests;

use std::collections::BTreeMap;

/// The most characters of one file's name, and of all that is given as a name.
const NAME_MOST: usize = 255;
const PATH_MOST: usize = 4_095;

/// How many links one name may lead over.
const LINKS_MOST: usize = 40;

#[derive(Clone, Debug, PartialEq, Eq)]
pub enum Entry {
    Folder,
    /// A folder without the right to write.
    Closed,
    File(Vec<u8>),
    /// A symbolic link to a name that holds from the link's own folder on.
    Link(String),
}

/// All that stands in a folder and below it.
#[derive(Clone, Debug, Default, PartialEq, Eq)]
pub struct Contents {
    /// The folder's own name, from the root on.
    pub home: String,
    /// By the names that hold from the folder on.
    pub entries: BTreeMap<String, Entry>,
    /// How many bytes a file that is made can have, if not any number.
    pub longest: Option<usize>,
}

impl Contents {
    pub fn new(home: impl Into<String>) -> Contents {
        Contents {
            home: home.into(),
            ..Contents::default()
        }
    }

    pub fn put(&mut self, name: impl Into<String>, entry: Entry) {
        self.entries.insert(name.into(), entry);
    }

    /// The bytes of the file that a name leads to, over links too.
    pub fn read(&self, name: &str) -> Option<&[u8]> {
        let mut place = self.place(name)?;
        for _ in 0..=LINKS_MOST {
            match self.entries.get(&place)? {
                Entry::File(bytes) => return Some(bytes),
                Entry::Folder | Entry::Closed => return None,
                Entry::Link(to) => place = self.place(&inside(parent(&place), to))?,
            }
        }
        None
    }

    /// Where a file of this name can be made, new or in place of what is there: of a file, or of a
    /// link, since a file that is renamed replaces the link itself. A folder stays, and so does a
    /// link that leads to one: it is a folder too.
    pub fn room_for(&self, name: &str) -> Option<String> {
        let place = self.place(name)?;
        let folder = self.walk(&place).is_some();
        let closed = self.entries.get(parent(&place)) == Some(&Entry::Closed);
        (!folder && !closed).then_some(place)
    }

    /// Where a file of this name stands or would stand; nothing if only a folder could.
    fn place(&self, name: &str) -> Option<String> {
        if name.len() > PATH_MOST {
            return None;
        }
        let name = match name.strip_prefix('/') {
            None => name,
            Some(_) => name
                .strip_prefix(&format!("{}/", self.home))
                .expect("no name of another folder is asked"),
        };
        let (folders, last) = name.rsplit_once('/').unwrap_or(("", name));
        let folder = self.walk(folders)?;
        match last {
            "" | "." | ".." => None,
            _ => step(&folder, last),
        }
    }

    /// The folder that a row of folders and links leads to, "" for the folder itself.
    fn walk(&self, folders: &str) -> Option<String> {
        let mut folder = String::new();
        let mut links = 0;
        // Those that are left, the next one last.
        let mut left: Vec<&str> = folders.rsplit('/').collect();
        while let Some(name) = left.pop() {
            if ["", "."].contains(&name) {
                continue;
            }
            if name == ".." {
                assert!(!folder.is_empty(), "no name outside the folder is asked");
                folder = parent(&folder).to_string();
                continue;
            }
            let next = step(&folder, name)?;
            match self.entries.get(&next)? {
                Entry::Folder | Entry::Closed => folder = next,
                Entry::File(_) => return None,
                Entry::Link(to) => {
                    links += 1;
                    if links > LINKS_MOST {
                        return None;
                    }
                    left.extend(to.rsplit('/'));
                }
            }
        }
        Some(folder)
    }
}

/// The name of what stands in a folder, if it is not too long for one.
fn step(folder: &str, name: &str) -> Option<String> {
    (name.len() <= NAME_MOST).then(|| inside(folder, name))
}

fn inside(folder: &str, name: &str) -> String {
    match folder {
        "" => name.to_string(),
        _ => format!("{folder}/{name}"),
    }
}

/// The folder that something stands in.
fn parent(place: &str) -> &str {
    place.rsplit_once('/').map_or("", |(folder, _)| folder)
}
