//! The kinds of random capture, and one of each by turns.

use super::fields::{Field, FIELDS};
use super::good::{good, office};
use super::record_faults::{RecordFault, RECORD_FAULTS};
use super::{damage, Film};
use crate::capture::header;
use crate::random::Random;

/// How many kinds take turns.
const KINDS: u64 = 22;

/// The random capture of a seed; which kind it is goes by the seed too, so that all kinds come round.
pub fn random(seed: u64) -> Film {
    let random = &mut Random::new(seed ^ 0xCA97);
    let mut film = match seed % KINDS {
        0..=3 => return office(random),
        18 => return damage::noise(random),
        _ => good(random),
    };
    match seed % KINDS {
        4..=7 => {}
        8 => cut_header(&mut film, random),
        9 | 10 => fields(&mut film, 1, random),
        11 => fields(&mut film, 2, random),
        12 => {
            let record = one_record(&mut film, random);
            fields(&mut film, 1, random);
            film.kind = format!("wrong field, and {record}");
        }
        13..=15 => film.kind = one_record(&mut film, random),
        16 => film.kind = two_records(&mut film, random),
        17 => film.kind = cut_and_unequal(&mut film, random),
        19 | 20 => foreign(&mut film, random),
        _ => damage::put(&mut film, random),
    }
    film
}

/// A file of 0 to 23 bytes: the front of a header, right or not.
fn cut_header(film: &mut Film, random: &mut Random) {
    let wrong = random.below(3);
    for _ in 0..wrong {
        random.pick(&FIELDS).put(film, random);
    }
    film.bytes.truncate(random.below(header::SIZE));
    film.kind = format!("header cut, {wrong} wrong fields");
}

fn fields(film: &mut Film, count: usize, random: &mut Random) {
    let first = random.below(FIELDS.len());
    let mut names = Vec::new();
    for place in first..first + count {
        let field: Field = FIELDS[place % FIELDS.len()];
        names.push(field.put(film, random));
    }
    film.kind = match &names[..] {
        [name] => format!("wrong field: {name}"),
        _ => "two wrong fields".to_string(),
    };
}

/// A fault in the first, a middle or the last record, and what it is.
fn one_record(film: &mut Film, random: &mut Random) -> String {
    let last = film.starts.len().saturating_sub(1);
    let place = match random.below(3) {
        0 => 0,
        1 => last,
        _ => random.below(last + 1),
    };
    let fault = random.pick(&RECORD_FAULTS);
    match fault.put(film, place, random) {
        Some(()) => format!("record {fault:?}"),
        None => "record without a fault".to_string(),
    }
}

/// An unequal record before or behind one that is cut.
fn two_records(film: &mut Film, random: &mut Random) -> String {
    let count = film.starts.len();
    if count < 2 {
        return one_record(film, random);
    }
    let first = random.below(count - 1);
    let second = random.between(first + 1, count - 1);
    let unequal = random.pick(&[RecordFault::OriginalLarger, RecordFault::OriginalSmaller]);
    let (faults, kind) = match random.below(2) {
        0 => {
            let cut = random.pick(&[
                RecordFault::CutHead,
                RecordFault::CutBytes,
                RecordFault::TooLong,
            ]);
            (
                [(unequal, first), (cut, second)],
                "an unequal record before a cut one",
            )
        }
        // Only by its lengths can a record be cut that others stand behind.
        _ => (
            [(unequal, second), (RecordFault::TooLong, first)],
            "a cut record before an unequal one",
        ),
    };
    let put = |(fault, place): (RecordFault, usize)| fault.put(film, place, random);
    match faults.map(put) {
        [Some(()), Some(())] => kind.to_string(),
        _ => "record without a fault".to_string(),
    }
}

/// A capture that would be good elsewhere: with nanoseconds, with the highest byte first, or both.
fn foreign(film: &mut Film, random: &mut Random) {
    let (kind, magic, reversed) = random.pick(&[
        ("with nanoseconds", 0xA1B2_3C4D_u32, false),
        ("with the highest byte first", 0xA1B2_C3D4, true),
        (
            "with nanoseconds, the highest byte first",
            0xA1B2_3C4D,
            true,
        ),
    ]);
    film.bytes[header::MAGIC].copy_from_slice(&magic.to_le_bytes());
    if reversed {
        let words = [0, 8, 12, 16, 20].map(|place| place..place + 4);
        let halves = [header::MAJOR, header::MINOR];
        let heads = film
            .starts
            .iter()
            .flat_map(|start| [0, 4, 8, 12].map(|place| start + place..start + place + 4));
        for field in words.into_iter().chain(halves).chain(heads) {
            film.bytes[field].reverse();
        }
    }
    film.kind = format!("good elsewhere, {kind}");
}

/// A last record that is cut, with unequal lengths.
fn cut_and_unequal(film: &mut Film, random: &mut Random) -> String {
    let Some(last) = film.starts.len().checked_sub(1) else {
        return "record without a fault".to_string();
    };
    let first = random.pick(&[
        RecordFault::OriginalLarger,
        RecordFault::OriginalSmaller,
        RecordFault::CapturedTooLong,
    ]);
    let unequal = first.put(film, last, random);
    let cut = RecordFault::CutBytes.put(film, last, random);
    match (unequal, cut) {
        (Some(()), Some(())) => "a record both cut and unequal".to_string(),
        _ => "record without a fault".to_string(),
    }
}
