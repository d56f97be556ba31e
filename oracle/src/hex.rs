//! Byte strings in hexadecimal digits, `-` for none.

/// The bytes that `text` names, if it is `-` or pairs of hexadecimal digits.
pub fn parse(text: &[u8]) -> Option<Vec<u8>> {
    if text == b"-" {
        return Some(Vec::new());
    }
    if text.is_empty() || text.len() % 2 == 1 {
        return None;
    }
    text.chunks(2)
        .map(|pair| Some((digit(pair[0])? << 4 | digit(pair[1])?) as u8))
        .collect()
}

/// The value of one hexadecimal digit, either case.
pub fn digit(character: u8) -> Option<u32> {
    char::from(character).to_digit(16)
}

pub fn write(bytes: &[u8]) -> String {
    if bytes.is_empty() {
        return "-".to_string();
    }
    bytes.iter().map(|byte| format!("{byte:02x}")).collect()
}

/// The most bytes that a report shows.
const SHOWN: usize = 8_192;

/// Bytes for a report, if they are not too many; a seed gives those again.
pub fn shown(bytes: &[u8]) -> String {
    match bytes.len() {
        0..=SHOWN => write(bytes),
        _ => format!("{} .. (only the front)", write(&bytes[..SHOWN])),
    }
}

#[cfg(test)]
mod tests {
    use super::*;

    #[test]
    fn there_and_back() {
        assert_eq!(parse(b"00aBFf"), Some(vec![0x00, 0xAB, 0xFF]));
        assert_eq!(write(&[0x00, 0xAB, 0xFF]), "00abff");
        assert_eq!(parse(b"-"), Some(vec![]));
        assert_eq!(write(&[]), "-");
    }

    #[test]
    fn what_is_no_byte_string() {
        for text in [&b""[..], b"0", b"000", b"0g", b"--", b"+1", b" 0"] {
            assert_eq!(parse(text), None);
        }
    }
}
