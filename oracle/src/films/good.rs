//! Good captures: records of every length behind a header whose unread fields are any.

use super::{time, Film};
use crate::capture::{header, record};
use crate::random::Random;

/// What is in a good capture.
#[derive(Clone, Copy, Debug, PartialEq, Eq)]
pub enum Shape {
    /// As an export makes it: records of 60 to 1,514 bytes.
    Office,
    /// The same with other unread fields.
    OtherFields,
    /// Records of up to 3,000 bytes, and both.
    AnyLengths,
    /// The header and nothing behind it.
    HeaderAlone,
    /// Dozens of short records.
    ManyRecords,
    /// A record of about 70,000 bytes among others.
    LongRecord,
}

pub const SHAPES: [Shape; 6] = [
    Shape::Office,
    Shape::OtherFields,
    Shape::AnyLengths,
    Shape::HeaderAlone,
    Shape::ManyRecords,
    Shape::LongRecord,
];

/// A good capture of any shape.
pub fn good(random: &mut Random) -> Film {
    let shape = match random.below(40) {
        0 => Shape::LongRecord,
        1..=3 => Shape::ManyRecords,
        4..=6 => Shape::HeaderAlone,
        7..=14 => Shape::OtherFields,
        15..=26 => Shape::Office,
        _ => Shape::AnyLengths,
    };
    shape.make(random)
}

/// A capture as an export makes it.
pub fn office(random: &mut Random) -> Film {
    Shape::Office.make(random)
}

impl Shape {
    pub fn make(self, random: &mut Random) -> Film {
        let count = match self {
            Shape::HeaderAlone => 0,
            Shape::ManyRecords => random.between(20, 50),
            _ => random.between(1, 5),
        };
        let mut lengths: Vec<usize> = (0..count).map(|_| self.length(random)).collect();
        if self == Shape::LongRecord {
            lengths[random.below(count)] =
                random.pick(&[65_531, 65_532, 65_535, 65_536, 69_999, 70_000]);
        }
        let mut film = Film {
            kind: format!("good {self:?}"),
            bytes: header::made().to_vec(),
            starts: Vec::new(),
        };
        for length in lengths {
            film.starts.push(film.bytes.len());
            let record = record::made(time(random), &random.bytes(length));
            film.bytes.extend(record);
        }
        if self != Shape::Office && !random.once_in(4) {
            unread(&mut film, random);
        }
        film
    }

    fn length(self, random: &mut Random) -> usize {
        match self {
            Shape::Office | Shape::OtherFields => match random.below(8) {
                0 => random.pick(&[60, 61, 1_513, 1_514]),
                1 => random.between(60, 1_514),
                _ => random.between(60, 160),
            },
            Shape::ManyRecords => random.below(24),
            _ => match random.below(8) {
                0 => 0,
                1 => random.below(5),
                2 => random.pick(&[11, 12, 15, 16, 17, 24, 59, 60, 64, 1_514, 1_515, 1_518]),
                3 | 4 => random.between(0, 3_000),
                _ => random.below(100),
            },
        }
    }
}

/// Other values for the fields that are not read.
fn unread(film: &mut Film, random: &mut Random) {
    let fields = [header::ZONE, header::ACCURACY, header::SNAP];
    let all = random.once_in(3);
    let chosen = random.below(fields.len());
    for (place, field) in fields.into_iter().enumerate() {
        if all || place == chosen {
            let value = match random.below(3) {
                0 => random.pick(&[0, 1, 3_600, 60, 262_144, 0xFFFF_F1F0, u32::MAX]),
                1 => random.below(1_600) as u32,
                _ => random.word(),
            };
            film.bytes[field].copy_from_slice(&value.to_le_bytes());
        }
    }
}
