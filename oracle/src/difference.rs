//! The first difference between what the oracle and a library left.

use std::fmt::LowerHex;

/// What a number of a found list holds before the call; it is none that is ever found.
pub const BEFORE: u64 = 0xDEAD_BEEF_DEAD_BEEF;

/// A list of this length at whose front these numbers were put: what does not fit is left out, and
/// what is behind them stays.
pub fn list(numbers: &[u64], length: usize) -> Vec<u64> {
    let behind = std::iter::repeat(BEFORE);
    numbers.iter().copied().chain(behind).take(length).collect()
}

/// The first number found otherwise, by its name; a list may be longer than there are names.
pub fn found(names: &[&str], wanted: &[u64], got: &[u64]) -> Result<(), String> {
    let names = names.iter().chain(std::iter::repeat(&"behind them"));
    for ((name, wanted), got) in names.zip(wanted).zip(got) {
        if wanted != got {
            let [wanted, got] = [*wanted, *got].map(|number| match number {
                BEFORE => "nothing".to_string(),
                _ => format!("{number} ({number:x} hex)"),
            });
            return Err(format!(
                "first difference: {name}: the oracle finds {wanted}, the library {got}"
            ));
        }
    }
    Ok(())
}

/// The first place of a lent buffer that holds something else.
pub fn buffer<T: Copy + PartialEq + LowerHex>(
    name: &str,
    before: &[T],
    wanted: &[T],
    got: &[T],
) -> Result<(), String> {
    if wanted == got {
        return Ok(());
    }
    let places = wanted.iter().zip(got);
    let place = places.take_while(|(wanted, got)| wanted == got).count();
    let count = wanted.iter().zip(got).filter(|(w, g)| w != g).count();
    Err(format!(
        "first difference: {name} at {place} of {}: the oracle leaves {:02x}, the library {:02x}, \
         before it was {:02x}; {count} differ",
        wanted.len(),
        wanted[place],
        got[place],
        before[place]
    ))
}

#[cfg(test)]
mod tests {
    use super::*;

    #[test]
    fn the_first_number_by_its_name() {
        let names = ["number", "bytes"];
        let told = |wanted: &[u64], got: &[u64]| found(&names, wanted, got).err();
        assert_eq!(told(&[0, 7, BEFORE], &[0, 7, BEFORE]), None);
        for (wanted, got, text) in [
            (
                [0, 7, 8],
                [0, 16, 9],
                "bytes: the oracle finds 7 (7 hex), the library 16 (10 hex)",
            ),
            (
                [0, 7, 8],
                [0, BEFORE, 8],
                "bytes: the oracle finds 7 (7 hex), the library nothing",
            ),
            (
                [0, 7, BEFORE],
                [0, 7, 1],
                "behind them: the oracle finds nothing, the library 1 (1 hex)",
            ),
        ] {
            assert_eq!(
                told(&wanted, &got),
                Some(format!("first difference: {text}"))
            );
        }
    }

    #[test]
    fn lists_of_every_length() {
        assert_eq!(list(&[1, 2], 1), [1]);
        assert_eq!(list(&[1, 2], 2), [1, 2]);
        assert_eq!(list(&[1, 2], 4), [1, 2, BEFORE, BEFORE]);
    }

    #[test]
    fn the_first_place_of_a_buffer() {
        assert_eq!(buffer("room", &[1_u8, 2], &[3, 2], &[3, 2]), Ok(()));
        let told = buffer("answers", &[9_u32; 3], &[1, 2, 3], &[1, 8, 0x123]).err();
        let text = "first difference: answers at 1 of 3: the oracle leaves 02, the library 08, \
                    before it was 09; 2 differ";
        assert_eq!(told, Some(text.to_string()));
    }
}
