//! `import_capture`: captures of every kind over windows of every kind, and words that are no numbers.

use crate::compare::{Comparison, IN, OUT};
use crate::{expected, targets};
use oracle::capture::{self, header, record, Time};
use oracle::files::Entry;
use oracle::films::{self, Field, Film, Shape, FIELDS, RECORD_FAULTS};
use oracle::hex::shown;
use oracle::numbers::{RECORD_CUT, RECORD_LENGTHS};
use oracle::random::Random;

/// Words that are no base address.
const NO_BASES: [&str; 17] = [
    "",
    "000000000",
    "123456789",
    "g",
    "0x10",
    "+1",
    "-1",
    "-",
    " 1",
    "1 ",
    "1 0",
    "1.0",
    "10h",
    "1_0",
    "\u{661}",
    "\u{ff11}",
    "1\n",
];

/// Words that are no length.
const NO_LENGTHS: [&str; 17] = [
    "",
    "000000064",
    "100000000",
    "6a",
    "0x40",
    "+64",
    "-64",
    "-",
    " 64",
    "64 ",
    "6 4",
    "64.0",
    "64,0",
    "6_4",
    "\u{661}",
    "\u{ff16}4",
    "64\n",
];

/// Bases and lengths in hexadecimal and decimal digits that are an allowed window.
const WINDOWS: [(&str, &str); 9] = [
    ("0", "64"),
    ("00000000", "00000064"),
    ("4", "68"),
    ("20000000", "4096"),
    ("ABCDEF10", "128"),
    ("abCDef10", "65536"),
    ("ffffffc0", "64"),
    ("FFFF0000", "65536"),
    ("0", "65532"),
];

/// And that are none.
const NO_WINDOWS: [(&str, &str); 14] = [
    ("0", "0"),
    ("0", "60"),
    ("0", "63"),
    ("0", "66"),
    ("0", "65537"),
    ("0", "65540"),
    ("0", "98304"),
    ("0", "131136"),
    ("0", "99999999"),
    ("1", "64"),
    ("2", "64"),
    ("ffffffc4", "64"),
    ("ffffffff", "64"),
    ("ffff0004", "65536"),
];

/// Any allowed window.
pub fn window(random: &mut Random) -> (u32, u32) {
    let length = match random.below(3) {
        0 => random.pick(&[64, 65_536]),
        _ => 4 * random.between(16, 16_384) as u32,
    };
    let base = match random.below(3) {
        0 => random.pick(&[0, 0_u32.wrapping_sub(length)]),
        _ => 4 * random.below((u32::MAX - length) as usize / 4) as u32,
    };
    (base, length)
}

/// The capture of a seed, good or not, with words and a target of its own.
pub fn random(comparison: &mut Comparison, seed: u64) -> Result<(), String> {
    let random = &mut Random::new(seed ^ 0x1306);
    let film = film(seed, random);
    let [base, length] = words(comparison, random);
    let target = targets::random(random);
    let inputs = comparison.with(&[(IN, &film.bytes)]);
    let old = random.once_in(2);
    count(comparison, &film);
    targets::into(
        comparison,
        target,
        inputs,
        old,
        random,
        |comparison, name, before| comparison.import(&[IN, name, &base, &length], before),
    )
    .map_err(|difference| {
        let Film { kind, bytes, .. } = &film;
        let length = bytes.len();
        format!(
            "{difference}\ncapture of {length} ({kind}): {}",
            shown(bytes)
        )
    })?;
    Ok(())
}

/// A capture, good or not; what one of any kind has seldom comes round by itself.
fn film(seed: u64, random: &mut Random) -> Film {
    let [_, version, link] = FIELDS;
    match seed % 8 {
        0 => Shape::HeaderAlone.make(random),
        1 => random
            .pick(&[Shape::AnyLengths, Shape::AnyLengths, Shape::LongRecord])
            .make(random),
        2 => wrong_field(version, random),
        3 => wrong_field(link, random),
        4 => wrong_record(RECORD_CUT, random),
        5 => wrong_record(RECORD_LENGTHS, random),
        _ => films::random(seed),
    }
}

fn wrong_field(field: Field, random: &mut Random) -> Film {
    let mut film = films::good(random);
    film.kind = field.put(&mut film, random);
    film
}

/// A capture whose last record is refused by this number.
fn wrong_record(number: u32, random: &mut Random) -> Film {
    let mut film = Shape::Office.make(random);
    let faults = RECORD_FAULTS.into_iter();
    let faults: Vec<_> = faults.filter(|fault| fault.number() == number).collect();
    let fault = random.pick(&faults);
    let last = film.starts.len() - 1;
    let put = fault.put(&mut film, last, random);
    put.expect("a record of some bytes can have every fault");
    film.kind = format!("{fault:?}");
    film
}

/// A base and a length: most often an allowed window.
fn words(comparison: &mut Comparison, random: &mut Random) -> [String; 2] {
    let (base, length) = window(random);
    let (base, length) = (format!("{base:x}"), length.to_string());
    let (kind, words) = match random.below(32) {
        0 => ("no base", [random.pick(&NO_BASES).to_string(), length]),
        1 => ("no length", [base, random.pick(&NO_LENGTHS).to_string()]),
        2 => (
            "neither",
            [
                random.pick(&NO_BASES).to_string(),
                random.pick(&NO_LENGTHS).to_string(),
            ],
        ),
        3..=8 => {
            let (base, length) = random.pick(&NO_WINDOWS);
            ("window not allowed", [base.to_string(), length.to_string()])
        }
        9..=12 => {
            let (base, length) = random.pick(&WINDOWS);
            ("window at a limit", [base.to_string(), length.to_string()])
        }
        _ => ("any window", [base, length]),
    };
    comparison.tally.met(expected::words_name(kind));
    words
}

/// Counts what a good capture has that could be imported wrongly.
fn count(comparison: &mut Comparison, film: &Film) {
    let Ok(records) = capture::records(&film.bytes) else {
        return;
    };
    if records.is_empty() {
        comparison.tally.met(expected::record_name("none"));
    }
    for record in records {
        let length = match record.bytes.len() {
            0 => "of no bytes",
            1..=59 => "under 60 bytes",
            60..=1_514 => "of 60 to 1,514 bytes",
            1_515..=65_535 => "over 1,514 bytes",
            _ => "over 65,535 bytes",
        };
        comparison.tally.met(expected::record_name(length));
        if record.time.microseconds > 999_999 {
            let late = expected::record_name("microseconds over 999,999");
            comparison.tally.met(late);
        }
    }
}

/// Every word; every number of arguments; times and lengths at their limits.
pub fn made_by_hand(comparison: &mut Comparison) -> Result<(), String> {
    let pcap = targets::pcap(60);
    let mut before = comparison.with(&[(IN, &pcap)]);
    before.put(OUT, Entry::File(vec![7; 100]));
    let both: Vec<(&str, &str)> = NO_BASES.into_iter().zip(NO_LENGTHS).collect();
    for (kind, words) in [
        ("no base", &NO_BASES.map(|base| (base, "64"))[..]),
        ("no length", &NO_LENGTHS.map(|length| ("0", length))),
        ("neither", &both),
        ("window at a limit", &WINDOWS),
        ("window not allowed", &NO_WINDOWS),
    ] {
        for (base, length) in words {
            comparison.tally.met(expected::words_name(kind));
            comparison.import(&[IN, OUT, base, length], &before)?;
        }
    }
    for words in [
        &[][..],
        &[IN],
        &[IN, OUT],
        &[IN, OUT, "0"],
        &[IN, OUT, "0", "64", "64"],
        &["none", "none/none", "x"],
        &["none", "none/none", "x", "x", "x", "x"],
    ] {
        comparison.import(words, &before)?;
    }
    records(comparison)
}

/// Lengths of records, the seldom ones among them.
const LENGTHS: [usize; 10] = [0, 1, 59, 60, 1_514, 1_515, 1_518, 3_000, 65_535, 65_536];

/// Times of every number of digits, with records of every length at a limit.
fn records(comparison: &mut Comparison) -> Result<(), String> {
    let mut film = Film {
        kind: "by hand".to_string(),
        bytes: header::made().to_vec(),
        starts: Vec::new(),
    };
    let mut lengths = LENGTHS.into_iter().cycle();
    for number in (0..10).map(|power| 10_u32.pow(power)).chain([0, u32::MAX]) {
        for (seconds, microseconds) in [(number, 0), (0, number), (number - number.min(1), number)]
        {
            let time = Time {
                seconds,
                microseconds,
            };
            let length = lengths.next().expect("they come round");
            film.bytes.extend(record::made(time, &vec![0x5A; length]));
        }
    }
    count(comparison, &film);
    let before = comparison.with(&[(IN, &film.bytes)]);
    let ended = comparison.import(&[IN, OUT, "0", "64"], &before)?;
    assert!(ended.output.starts_with("imported 36\n"));
    Ok(())
}
