//! Wrong fields of a header, by name.

use super::Film;
use crate::capture::header;
use crate::random::Random;

/// A field that is read.
#[derive(Clone, Copy, Debug, PartialEq, Eq)]
pub enum Field {
    Magic,
    Version,
    Link,
}

pub const FIELDS: [Field; 3] = [Field::Magic, Field::Version, Field::Link];

const MAGICS: [(&str, u32); 6] = [
    ("highest byte first", 0xD4C3_B2A1),
    ("nanoseconds", 0xA1B2_3C4D),
    ("nanoseconds, highest byte first", 0x4D3C_B2A1),
    ("of another form", 0x0A0D_0D0A),
    ("right in 16 bits", 0xA1B2_C3D4 ^ 0x0100_0000),
    ("zero", 0),
];

/// Major and minor version.
const VERSIONS: [(&str, u16, u16); 12] = [
    ("2.3", 2, 3),
    ("2.5", 2, 5),
    ("4.2", 4, 2),
    ("3.4", 3, 4),
    ("1.4", 1, 4),
    ("2.0", 2, 0),
    ("0.4", 0, 4),
    ("major right in 8 bits", 0x0102, 4),
    ("minor right in 8 bits", 2, 0x0104),
    ("minor with its highest bit", 2, 0x8004),
    ("highest byte first", 0x0200, 0x0400),
    ("major highest byte first", 0x0200, 4),
];

const LINKS: [(&str, u32); 9] = [
    ("0", 0),
    ("2", 2),
    ("101", 101),
    ("1 in 16 bits", 0x0001_0001),
    ("highest byte first", 0x0100_0000),
    ("1 in 28 bits", 0x1000_0001),
    ("1 in 31 bits", 0x8000_0001),
    ("1 in 8 bits", 0x0000_0101),
    ("in the upper half", 0x0001_0000),
];

const ONE_BIT: &str = "one bit off";

impl Field {
    fn named(self, value: &str) -> String {
        format!("{self:?} {value}")
    }

    /// Makes this field wrong, and tells how.
    pub fn put(self, film: &mut Film, random: &mut Random) -> String {
        let place = match self {
            Field::Magic => header::MAGIC.start,
            Field::Version => header::MAJOR.start,
            Field::Link => header::LINK.start,
        };
        if random.once_in(5) {
            let bit = random.below(32);
            film.bytes[place + bit / 8] ^= 1 << (bit % 8);
            return self.named(ONE_BIT);
        }
        let (name, value) = match self {
            Field::Magic => random.pick(&MAGICS),
            Field::Version => {
                let (name, major, minor) = random.pick(&VERSIONS);
                (name, u32::from(minor) << 16 | u32::from(major))
            }
            Field::Link => random.pick(&LINKS),
        };
        film.bytes[place..place + 4].copy_from_slice(&value.to_le_bytes());
        self.named(name)
    }
}

/// The names of all wrong fields.
pub fn names() -> impl Iterator<Item = String> {
    let magics = MAGICS.iter().map(|(name, _)| Field::Magic.named(name));
    let versions = VERSIONS.iter().map(|(name, ..)| Field::Version.named(name));
    let links = LINKS.iter().map(|(name, _)| Field::Link.named(name));
    let bits = FIELDS.iter().map(|field| field.named(ONE_BIT));
    magics.chain(versions).chain(links).chain(bits)
}
