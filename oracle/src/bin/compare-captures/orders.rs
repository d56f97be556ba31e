//! What is told first where several things are wrong at once: all that can be wrong, with all else that
//! can be.

use crate::compare::{Comparison, ALSO, IN, OUT};
use crate::{expected, exports, targets};
use oracle::capture::{header, record, Time};
use oracle::files::Entry;
use oracle::random::Random;
use oracle::tapes::{self, FAULTS};
use oracle::trace::block;

/// What can be wrong with an import, in the order of the tests.
pub const IMPORT: [&str; 6] = ["base", "length", "file", "capture", "window", "target"];
/// And with an export.
pub const EXPORT: [&str; 4] = ["trace file", "memory file", "trace", "target"];

pub fn compare(comparison: &mut Comparison) -> Result<(), String> {
    // A bit for each.
    for wrong in 0..1 << IMPORT.len() {
        import(comparison, wrong)?;
    }
    for wrong in 0..1 << EXPORT.len() {
        export(comparison, wrong)?;
    }
    traces(comparison)?;
    captures(comparison)
}

/// Counts each that was not told for the first that is wrong.
fn count(comparison: &mut Comparison, program: &str, names: &[&str], wrong: usize) {
    let is_wrong = |place: &usize| wrong >> place & 1 == 1;
    let all: Vec<usize> = (0..names.len()).filter(is_wrong).collect();
    if let [first, later @ ..] = &all[..] {
        for other in later {
            let name = expected::order_name(program, names[*first], names[*other]);
            comparison.tally.met(name);
        }
    }
}

fn import(comparison: &mut Comparison, wrong: usize) -> Result<(), String> {
    let is = |name: &str| {
        let place = IMPORT.iter().position(|known| *known == name);
        wrong >> place.expect("a name of the list") & 1 == 1
    };
    let pcap = targets::pcap(60);
    let pcap = match is("capture") {
        true => &pcap[..pcap.len() - 1],
        false => &pcap,
    };
    let mut before = comparison.with(&[]);
    if !is("file") {
        before.put(IN, Entry::File(pcap.to_vec()));
    }
    before.put(OUT, Entry::File(vec![7; 100]));
    let base = match (is("base"), is("window")) {
        (true, _) => "x",
        (false, true) => "2",
        (false, false) => "4",
    };
    let length = match (is("length"), is("window")) {
        (true, _) => "y",
        (false, true) => "60",
        (false, false) => "64",
    };
    let target = match is("target") {
        true => "none/out",
        false => OUT,
    };
    count(comparison, "import", &IMPORT, wrong);
    comparison.import(&[IN, target, base, length], &before)?;
    Ok(())
}

fn export(comparison: &mut Comparison, wrong: usize) -> Result<(), String> {
    let is = |name: &str| {
        let place = EXPORT.iter().position(|known| *known == name);
        wrong >> place.expect("a name of the list") & 1 == 1
    };
    let (mut trace, memory) = targets::day(14);
    if is("trace") {
        trace[0] = 1;
    }
    let mut before = comparison.with(&[]);
    if !is("trace file") {
        before.put(IN, Entry::File(trace));
    }
    if !is("memory file") {
        before.put(ALSO, Entry::File(memory));
    }
    before.put(OUT, Entry::File(vec![7; 100]));
    let target = match is("target") {
        true => "none/out",
        false => OUT,
    };
    count(comparison, "export", &EXPORT, wrong);
    comparison.export(&[IN, ALSO, target], &before)?;
    Ok(())
}

/// Each fault of a trace in its first, a middle or its last block, with an old file that stays.
fn traces(comparison: &mut Comparison) -> Result<(), String> {
    let random = &mut Random::new(0x0DE4);
    for _ in 0..20 {
        let good = tapes::good(random);
        for fault in FAULTS {
            let mut tape = good.clone();
            let last = tape.blocks() - 1;
            let place = random.pick(&[0, last, last / 2]);
            // The last block can have every fault.
            let put = fault.put(&mut tape, place, random);
            if put.is_some() || fault.put(&mut tape, last, random).is_some() {
                exports::over_old(comparison, &tape.bytes, &tape.image)?;
            }
        }
    }
    Ok(())
}

/// Each refusal of a capture, with an allowed window and without one.
fn captures(comparison: &mut Comparison) -> Result<(), String> {
    let good = targets::pcap(60);
    let changed = |place: usize| {
        let mut file = good.clone();
        file[place] ^= 0x40;
        file
    };
    let time = Time {
        seconds: 3,
        microseconds: 4,
    };
    let unequal = {
        let mut file = changed(header::SIZE + record::ORIGINAL);
        // Cut too, but in a later record.
        file.extend(&record::made(time, &[1, 2])[..17]);
        file
    };
    let cut = |length: usize| good[..length].to_vec();
    for (file, number) in [
        (cut(0), 31),
        (cut(1), 31),
        (cut(4), 31),
        (cut(8), 31),
        (cut(16), 31),
        (cut(20), 31),
        (cut(23), 31),
        (changed(0), 32),
        (changed(4), 33),
        (changed(6), 33),
        (changed(23), 34),
        (cut(good.len() - 1), 35),
        (unequal, 36),
    ] {
        let mut before = comparison.with(&[(IN, &file)]);
        before.put(OUT, Entry::File(vec![7; block::SIZE]));
        for (length, target) in [("64", OUT), ("60", OUT), ("60", "none/out")] {
            let ended = comparison.import(&[IN, target, "0", length], &before)?;
            assert_eq!(ended.output, format!("refused {number}\n"));
        }
    }
    Ok(())
}
