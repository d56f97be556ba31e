//! The forms of a console line's words.

use crate::hex;

/// 1 to 8 hexadecimal digits, either case.
pub fn hexadecimal(word: &[u8]) -> Option<u32> {
    number(word, 16)
}

/// 1 to 8 decimal digits, up to a limit.
pub fn decimal(word: &[u8], most: u32) -> Option<u32> {
    number(word, 10).filter(|value| *value <= most)
}

fn number(word: &[u8], radix: u32) -> Option<u32> {
    if !(1..=8).contains(&word.len()) {
        return None;
    }
    word.iter().try_fold(0_u32, |sum, character| {
        let digit = hex::digit(*character).filter(|digit| *digit < radix)?;
        Some(sum * radix + digit)
    })
}

#[cfg(test)]
mod tests {
    use super::*;

    #[test]
    fn numbers_by_their_digits() {
        assert_eq!(hexadecimal(b"fFfFffFf"), Some(u32::MAX));
        assert_eq!(decimal(b"00000064", 64), Some(64));
        assert_eq!(decimal(b"99999999", u32::MAX), Some(99_999_999));
    }

    #[test]
    fn what_is_no_number() {
        for word in [&b""[..], b"000000000", b"1g", b"-1", b"+1", b"0x1"] {
            assert_eq!(hexadecimal(word), None);
        }
        assert_eq!(decimal(b"a", 64), None);
        assert_eq!(decimal(b"65", 64), None);
    }
}
