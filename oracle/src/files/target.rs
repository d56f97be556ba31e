//! Targets for a program that makes files: their names, and what is in the folder before.

use super::{Contents, Entry};
use crate::random::Random;

/// A row of a table of targets: what it is, the names, and what else is there.
#[derive(Clone, Copy)]
pub struct Target<const N: usize> {
    pub kind: &'static str,
    /// With `{home}` for the folder's own name, and for letters their number in braces.
    names: [&'static str; N],
    /// What else is there: files, folders with a slash, links with an arrow, closed folders with an
    /// exclamation mark; `*` is each name.
    there: &'static str,
}

/// The rows of a table.
pub fn rows<const N: usize>(table: &'static str) -> Vec<Target<N>> {
    let row = |line: &'static str| {
        let cells: Vec<&str> = line.split('|').map(str::trim).collect();
        assert_eq!(
            cells.len(),
            N + 2,
            "a row has a kind, names and the rest: {line}"
        );
        Target {
            kind: cells[0],
            names: std::array::from_fn(|name| cells[name + 1]),
            there: cells[N + 1],
        }
    };
    table.trim().lines().map(row).collect()
}

/// The names given, and what is in the folder before.
pub struct Place<const N: usize> {
    pub names: [String; N],
    pub before: Contents,
}

impl<const N: usize> Target<N> {
    /// Whether a file of one of its names can be there before, in such a folder.
    pub fn can_be_old(&self, empty: &Contents) -> bool {
        (0..N).any(|old| {
            let old = std::array::from_fn(|name| name == old);
            self.place(empty.clone(), old, &mut Random::new(0))
                .is_some()
        })
    }

    /// The target in a folder, with those of its names there before, as files, that `old` says.
    /// Nothing if one cannot be.
    pub fn place(&self, empty: Contents, old: [bool; N], random: &mut Random) -> Option<Place<N>> {
        let mut before = empty;
        let names = self.names.map(|name| spelled(name, &before.home));
        before.put("folder", Entry::Folder);
        before.put("folder/below", Entry::Folder);
        before.put("folder/inside", Entry::File(vec![1, 2, 3]));
        before.put("other", Entry::File(vec![4, 5, 6]));
        for there in self.there.split(", ").filter(|there| !there.is_empty()) {
            for name in &names {
                put(&mut before, &there.replace('*', name), random);
            }
        }
        for (name, old) in names.iter().zip(old) {
            if old {
                let place = before.room_for(name)?;
                if before.entries.contains_key(&place) {
                    return None;
                }
                before.put(place, file(random));
            }
        }
        Some(Place { names, before })
    }
}

fn put(before: &mut Contents, there: &str, random: &mut Random) {
    if let Some((name, to)) = there.split_once(" -> ") {
        before.put(name, Entry::Link(to.to_string()));
    } else if let Some(name) = there.strip_suffix('/') {
        before.put(name, Entry::Folder);
    } else if let Some(name) = there.strip_suffix('!') {
        before.put(name, Entry::Closed);
    } else {
        before.put(there, file(random));
    }
}

fn file(random: &mut Random) -> Entry {
    let length = random.below(2_000);
    Entry::File(random.bytes(length))
}

/// A name with what no table can hold.
fn spelled(name: &str, home: &str) -> String {
    let mut name = name.replace("{home}", home);
    for length in [255, 256] {
        name = name.replace(&format!("{{{length}}}"), &"n".repeat(length));
    }
    name
}
