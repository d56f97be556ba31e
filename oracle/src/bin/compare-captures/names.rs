//! Names of files that are read: those that lead to a file, and those that do not.

use crate::compare::{Comparison, OUT};
use crate::targets;
use oracle::files::Entry;

const LINKS: [(&str, &str); 6] = [
    ("to-good", "good"),
    ("to-pcap", "pcap"),
    ("to-folder", "folder"),
    ("to-nothing", "none"),
    ("to-itself", "to-itself"),
    ("to-link", "to-nothing"),
];

/// Names that lead to no file.
const MISSING: [&str; 15] = [
    "none",
    "none/good",
    "none/../good",
    "folder",
    "folder/",
    "good/",
    "good/inside",
    "good/../memory",
    "",
    "a\nb",
    ".",
    "to-nothing",
    "to-itself",
    "to-link",
    "to-folder",
];

/// Names that cannot be read, for each file, with the others right or not; names that can, by other
/// spellings; every number of arguments.
pub fn compare(comparison: &mut Comparison) -> Result<(), String> {
    let (trace, memory) = targets::day(14);
    let pcap = targets::pcap(60);
    let longest = "n".repeat(255);
    let mut before = comparison.with(&[
        ("good", &trace),
        ("bad", &[0; 100]),
        ("memory", &memory),
        ("empty", &[]),
        (&longest, &trace),
        ("pcap", &pcap),
        ("-", &pcap),
        (OUT, &[7; 100]),
    ]);
    before.put("folder", Entry::Folder);
    before.put("folder/inside", Entry::File(memory));
    for (name, to) in LINKS {
        before.put(name, Entry::Link(to.to_string()));
    }
    let long = [300, 4_095, 4_096, 70_000].map(|length| "a".repeat(length));
    for wrong in MISSING.into_iter().chain(long.iter().map(String::as_str)) {
        for [trace, memory] in [
            // The first that cannot be read is told, before anything that is in them.
            [wrong, "memory"],
            ["good", wrong],
            ["bad", wrong],
        ] {
            comparison.export(&[trace, memory, OUT], &before)?;
        }
        comparison.import(&[wrong, OUT, "0", "64"], &before)?;
    }
    for [trace, memory] in [
        ["none", "none too"],
        ["none too", "none"],
        ["empty", "none"],
    ] {
        comparison.export(&[trace, memory, OUT], &before)?;
    }
    let whole = ["good", "/memory", "pcap"].map(|name| format!("{}/{name}", before.home));
    for [trace, memory] in [
        ["good", "good"],
        ["empty", "empty"],
        ["./good", "folder/../memory"],
        ["to-good", "to-folder/inside"],
        [&longest, "memory"],
        [&whole[0], &whole[1]],
    ] {
        comparison.export(&[trace, memory, OUT], &before)?;
    }
    for pcap in ["./pcap", "to-pcap", "folder/..//pcap", "-", &whole[2]] {
        comparison.import(&[pcap, OUT, "0", "64"], &before)?;
    }
    for words in [
        &[][..],
        &["good"],
        &["good", "memory"],
        &["none", "none"],
        &["good", "memory", OUT, OUT],
        &["none", "none", "none/none", "none", "none"],
    ] {
        comparison.export(words, &before)?;
    }
    Ok(())
}
