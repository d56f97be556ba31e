//! Names for `replay`: those that lead to a file, and those that do not.

use crate::compare::Comparison;
use crate::replays::{contents, given};
use oracle::files::Entry;
use oracle::tapes;

const LINKS: [(&str, &str); 5] = [
    ("to-good", "good"),
    ("to-folder", "folder"),
    ("to-nothing", "none"),
    ("to-itself", "to-itself"),
    ("to-link", "to-nothing"),
];

/// Names that lead to no file.
const MISSING: [&str; 16] = [
    "none",
    "none/good",
    "none/../good",
    "folder",
    "folder/",
    "good/",
    "good/inside",
    "good/../memory",
    "",
    "no such",
    "a\nb",
    ".",
    "to-nothing",
    "to-itself",
    "to-link",
    "to-folder",
];

/// Names that cannot be read, for the trace and for the memory, with the other one right or not;
/// names that can, by other spellings; every number of arguments; one file for both.
pub fn compare(comparison: &mut Comparison) -> Result<(), String> {
    let tape = tapes::random(0);
    let longest = "n".repeat(255);
    let files: [(&str, &[u8]); 6] = [
        ("good", &tape.bytes),
        ("bad", &[0; 100]),
        ("memory", &tape.image),
        ("empty", &[]),
        (&longest, &tape.bytes),
        (".hidden memory", &tape.image),
    ];
    let mut before = contents(comparison, &files);
    before.put("folder", Entry::Folder);
    before.put("folder/inside", Entry::File(tape.image.clone()));
    for (name, to) in LINKS {
        before.put(name, Entry::Link(to.to_string()));
    }
    let long = [300, 4_095, 4_096, 70_000].map(|length| "a".repeat(length));
    let missing = MISSING.into_iter().chain(long.iter().map(String::as_str));
    for wrong in missing {
        for names in [
            // The first that cannot be read is told, before anything that is in them.
            [wrong, "memory"],
            ["good", wrong],
            ["bad", wrong],
            ["empty", wrong],
            [wrong, "none too"],
            ["none too", wrong],
        ] {
            given(comparison, &names, &before)?;
        }
    }
    let whole = ["good", "/memory"].map(|name| format!("{}/{name}", before.home));
    for names in [
        ["good", "good"],
        ["empty", "empty"],
        ["./good", "folder/../memory"],
        ["to-good", "to-folder/inside"],
        [longest.as_str(), ".hidden memory"],
        [whole[0].as_str(), whole[1].as_str()],
    ] {
        given(comparison, &names, &before)?;
    }
    for words in [
        &[][..],
        &["good"],
        &["none"],
        &["good", "memory", "memory"],
        &["none", "none", "none", "none"],
    ] {
        given(comparison, words, &before)?;
    }
    Ok(())
}
