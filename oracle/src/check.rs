//! The IEEE 802.3 frame check sequence: by long division, as the standard words it, and by a table
//! for bulk work. The tests hold the two equal.

/// The exponents of G(x) in IEEE 802.3.
const GENERATOR: [usize; 15] = [32, 26, 23, 22, 16, 12, 11, 10, 8, 7, 5, 4, 2, 1, 0];

/// Bits complemented at the front of a frame by IEEE 802.3.
const COMPLEMENTED: usize = 32;

/// The bits of `bytes` as they go over the wire: low bit of each byte first.
fn wire_bits(bytes: &[u8]) -> impl Iterator<Item = bool> + '_ {
    bytes
        .iter()
        .flat_map(|byte| (0..8).map(move |place| byte >> place & 1 == 1))
}

/// The check sequence by long division of polynomials with one coefficient a place.
///
/// `complemented` is how many leading bits are complemented; the standard says 32, the manual's
/// text says two, and a test input with the manual's slip must be told apart.
pub fn division(message: &[u8], complemented: usize) -> [u8; 4] {
    let mut dividend: Vec<bool> = wire_bits(message).collect();
    let terms = dividend.len();
    // M(x) times x^32.
    dividend.extend([false; 32]);
    for bit in &mut dividend[..complemented] {
        *bit = !*bit;
    }
    for lead in 0..terms {
        if dividend[lead] {
            for exponent in GENERATOR {
                dividend[lead + 32 - exponent] ^= true;
            }
        }
    }
    // The remainder is complemented and sent x^31 first.
    let mut sequence = [0; 4];
    for (place, bit) in dividend[terms..].iter().enumerate() {
        if !bit {
            sequence[place / 8] |= 1 << (place % 8);
        }
    }
    sequence
}

/// The check sequence by the standard's own words; slow.
pub fn sequence_by_division(message: &[u8]) -> [u8; 4] {
    division(message, COMPLEMENTED)
}

/// G(x) without x^32, x^31 in the top bit.
const fn generator_word() -> u32 {
    let mut word = 0;
    let mut place = 1;
    while place < GENERATOR.len() {
        word |= 1 << GENERATOR[place];
        place += 1;
    }
    word
}

/// For each leading byte, what dividing it away leaves in the 32 places behind it.
const fn remainders() -> [u32; 256] {
    let mut table = [0; 256];
    let mut lead = 0;
    while lead < 256 {
        let mut rest = (lead as u32) << 24;
        let mut bit = 0;
        while bit < 8 {
            let carry = rest >> 31 == 1;
            rest <<= 1;
            if carry {
                rest ^= generator_word();
            }
            bit += 1;
        }
        table[lead] = rest;
        lead += 1;
    }
    table
}

const REMAINDERS: [u32; 256] = remainders();

/// The check sequence of `message` in the order its bytes are sent.
pub fn sequence(message: &[u8]) -> [u8; 4] {
    let mut rest = u32::MAX;
    for byte in message {
        let lead = (rest >> 24) as u8 ^ byte.reverse_bits();
        rest = rest << 8 ^ REMAINDERS[lead as usize];
    }
    (!rest).to_be_bytes().map(u8::reverse_bits)
}

/// The check sequence as the number that published CRC-32 tables give.
pub fn number(message: &[u8]) -> u32 {
    u32::from_le_bytes(sequence(message))
}

/// `message` with its check sequence behind it.
pub fn closed(message: &[u8]) -> Vec<u8> {
    let mut frame = message.to_vec();
    frame.extend(sequence(message));
    frame
}

/// Whether the last four bytes are the check sequence of those before; under four bytes it is wrong.
pub fn right(frame: &[u8]) -> bool {
    match frame.split_last_chunk::<4>() {
        Some((message, last)) => sequence(message) == *last,
        None => false,
    }
}

#[cfg(test)]
mod tests {
    use super::*;
    use crate::random::Random;

    #[test]
    fn table_equals_division() {
        let mut random = Random::new(1);
        for length in (0..70).chain([1514, 2000]) {
            let message = random.bytes(length);
            assert_eq!(sequence(&message), sequence_by_division(&message));
        }
    }

    #[test]
    fn the_generator_is_the_published_number() {
        assert_eq!(generator_word(), 0x04C1_1DB7);
    }

    #[test]
    fn published_check_value() {
        assert_eq!(number(b"123456789"), 0xCBF4_3926);
        assert_eq!(sequence(b"123456789"), [0x26, 0x39, 0xF4, 0xCB]);
    }

    #[test]
    fn two_complemented_bits_give_another_value() {
        assert_eq!(u32::from_le_bytes(division(b"123456789", 2)), 0xEB8F_EEB2);
    }

    #[test]
    fn four_zero_bytes_are_right_and_three_are_wrong() {
        assert!(right(&[0; 4]));
        assert!(!right(&[0; 3]));
        assert!(!right(&[]));
    }

    #[test]
    fn padding_of_sixty_zeros() {
        assert_eq!(sequence(&[0; 60]), [0x08, 0x89, 0x12, 0x04]);
    }
}
