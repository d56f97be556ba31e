//! Random damage, without thought for what it does.

use super::Film;
use crate::capture::header;
use crate::random::Random;

/// Changes, takes out or puts in a few bytes, often near the front or in a record's head.
pub fn put(film: &mut Film, random: &mut Random) {
    for _ in 0..random.between(1, 3) {
        action(film, random);
    }
    film.kind = "damage".to_string();
}

fn action(film: &mut Film, random: &mut Random) {
    let length = film.bytes.len();
    if length == 0 {
        film.bytes.push(random.byte());
        return;
    }
    let place = match random.below(4) {
        0 => random.below(length.min(header::SIZE)),
        1 if !film.starts.is_empty() => {
            let start = random.pick(&film.starts);
            (start + random.below(16)).min(length - 1)
        }
        _ => random.below(length),
    };
    match random.below(6) {
        0 | 1 => film.bytes[place] ^= 1 << random.below(8),
        2 => film.bytes[place] = random.byte(),
        3 => film.bytes.truncate(place),
        4 => {
            let more = random.between(1, 17);
            let more = random.bytes(more);
            film.bytes.splice(place..place, more);
        }
        _ => {
            let end = length.min(place + random.between(1, 17));
            film.bytes.drain(place..end);
        }
    }
}

/// Random bytes, behind a right header or not.
pub fn noise(random: &mut Random) -> Film {
    let (mut bytes, kind) = match random.below(2) {
        0 => (header::made().to_vec(), "random bytes behind a header"),
        _ => (Vec::new(), "random bytes"),
    };
    let more = random.below(80);
    bytes.extend(match random.below(3) {
        0 => vec![random.pick(&[0, 1, 0xFF]); more],
        _ => random.bytes(more),
    });
    Film {
        kind: kind.to_string(),
        bytes,
        starts: Vec::new(),
    }
}
