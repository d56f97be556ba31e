//! Bursts that are no calls, and those just at the limits of their form.

use crate::random::Random;

/// A burst's line with at most one thing wrong.
pub fn line(random: &mut Random) -> String {
    let count = random.pick(&[0, 1, 2, 3, 64, 65, 66]);
    let mut words = words(random, count);
    let last = words.len() - 1;
    match random.below(14) {
        // A pair too many, and a start without its length behind the last one allowed or any other.
        0 => words = self::words(random, 67),
        1 => {
            words = self::words(random, 67);
            words.pop();
        }
        2 | 3 => {
            words.pop();
        }
        4 => words.push("0".to_string()),
        // Numbers out of their form.
        5 => {
            words[1] = random
                .pick(&["67", "99", "00000067", "99999999"])
                .to_string()
        }
        6 => {
            let place = number(random, last);
            words[place] = format!("{:09}", random.below(65));
        }
        7 => {
            let place = number(random, last);
            words[place] = random.pick(&["a", "1f", "4A", "0x1", "1h"]).to_string();
        }
        8 => {
            let place = number(random, last);
            words[place] = random
                .pick(&["", "-", "+1", "-1", "1,2", "1.0"])
                .to_string();
        }
        // A space too many.
        9 => words.insert(random.between(0, last + 1), String::new()),
        10 => words[2] = random.pick(&["", "0", "0g", "--", "000"]).to_string(),
        11 => return as_long_as(random.pick(&[4_094, 4_095, 4_096, 4_097, 4_098]), random),
        _ => {}
    }
    words.join(" ")
}

/// The words of a burst of `count` pairs in a small store.
fn words(random: &mut Random, count: usize) -> Vec<String> {
    let mut words = ["burst", "", "00112233"].map(String::from).to_vec();
    words[1] = match random.below(4) {
        0 => random.below(67),
        _ => count.min(66),
    }
    .to_string();
    words.extend((0..2 * count).map(|_| random.below(6).to_string()));
    words
}

/// The place of a number among a burst's words up to `last`.
fn number(random: &mut Random, last: usize) -> usize {
    match random.between(1, last) {
        // The store is no number.
        2 => 1,
        place => place,
    }
}

/// A burst of exactly `length` characters with nothing wrong but its length, if that is.
fn as_long_as(length: usize, random: &mut Random) -> String {
    let count = random.pick(&[0, 1, 64]);
    let front = format!("burst {count} ");
    let pairs = " 0 4".repeat(count);
    let mut store = length - front.len() - pairs.len();
    // Digits go in pairs; a zero in front of the first number makes up for an odd one.
    let zero = if store % 2 == 1 { "0" } else { "" };
    store -= zero.len();
    let front = front.replace("burst ", &format!("burst {zero}"));
    format!("{front}{}{pairs}", "00".repeat(store / 2))
}

#[cfg(test)]
mod tests {
    use super::*;

    #[test]
    fn long_bursts_are_as_long_as_asked() {
        let mut random = Random::new(1);
        for length in (4_090..4_100).chain(4_090..4_100) {
            assert_eq!(as_long_as(length, &mut random).len(), length);
        }
    }
}
