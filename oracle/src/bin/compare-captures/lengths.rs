//! Both programs where a file cannot be longer than some length, as on a disk with little room.

use crate::compare::{Comparison, ALSO, IN, OUT};
use crate::{expected, targets};
use oracle::files::Entry;

/// The longest file that can be made.
const LONGEST: usize = 1_024;

/// How long the file is that would be made; the bytes that are sent, for 40 more in a capture; and the
/// bytes of a record, for 15 more in the blocks of a trace.
const FILES: [(&str, usize, usize); 3] = [
    ("short enough", 60, 60),
    ("as long as can be", LONGEST - 40, 2 * 504 - 15),
    ("too long", LONGEST - 39, 2 * 504 - 14),
];

pub fn kinds() -> impl Iterator<Item = &'static str> {
    FILES.into_iter().map(|(kind, ..)| kind)
}

pub fn compare(comparison: &mut Comparison) -> Result<(), String> {
    for (kind, sent, record) in FILES {
        let (trace, memory) = targets::day(sent);
        let pcap = targets::pcap(record);
        for old in [false, true] {
            comparison.tally.met(expected::length_name(kind));
            let mut before = comparison.with(&[(IN, &trace), (ALSO, &memory)]);
            before.longest = Some(LONGEST);
            if old {
                before.put(OUT, Entry::File(vec![7; 100]));
            }
            comparison.export(&[IN, ALSO, OUT], &before)?;
            before.put(IN, Entry::File(pcap.clone()));
            comparison.import(&[IN, OUT, "0", "64"], &before)?;
        }
    }
    Ok(())
}

#[cfg(test)]
mod tests {
    use super::*;
    use oracle::programs::{export_capture, import_capture};

    #[test]
    fn the_files_are_as_long_as_they_say() {
        let lengths = FILES.map(|(_, sent, record)| {
            let (trace, memory) = targets::day(sent);
            let exported = export_capture::export(&trace, &memory).ok();
            let imported = import_capture::import(&targets::pcap(record), 0, 64).ok();
            (
                exported.expect("it is exported").file.len(),
                imported.expect("it is imported").trace.len(),
            )
        });
        assert_eq!(lengths, [(100, 512), (1_024, 1_024), (1_025, 1_536)]);
    }
}
