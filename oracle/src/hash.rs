//! The hash of a group address: which bit of the two hash registers decides about it.
//!
//! "The hash index is the six highest powers of the uncomplemented 802.3 register over the
//! destination, highest first." RM0006 8.4.25 says how they are used: "The MSB bit selects the Hash
//! table registers (0 => HLT, 1 => HHT). The 5 LSB bits select the n-bit (0 ..31)".
//!
//! The register is kept here as the standard draws it, x^31 in the top bit, and moved one bit of the
//! wire at a time: it shares nothing with the check sequence, to which the tests relate it.

/// G(x) of IEEE 802.3 without x^32, the coefficient of x^31 in the top bit.
const GENERATOR: u32 = 0x04C1_1DB7;

/// The 802.3 register behind the six destination bytes: all ones at first, low bit of each byte
/// first, not complemented at the end.
pub fn register(destination: [u8; 6]) -> u32 {
    let mut register = u32::MAX;
    for byte in destination {
        for place in 0..8 {
            let arriving = byte >> place & 1;
            let leaving = (register >> 31) as u8;
            register <<= 1;
            if arriving != leaving {
                register ^= GENERATOR;
            }
        }
    }
    register
}

/// The hash index, 0 to 63: the coefficients of x^31 to x^26, that of x^31 with the weight 32.
pub fn index(destination: [u8; 6]) -> u32 {
    register(destination) >> 26
}

/// The bit of the hash registers that decides about this group address.
pub fn selected(destination: [u8; 6], high: u32, low: u32) -> bool {
    let register = register(destination);
    let table = if register >> 31 == 1 { high } else { low };
    let number = register >> 26 & 31;
    table >> number & 1 == 1
}

#[cfg(test)]
mod tests {
    use super::*;
    use crate::check;
    use crate::hash_vectors::VECTORS;
    use crate::random::Random;

    #[test]
    fn the_vectors() {
        for (destination, wanted, place) in VECTORS {
            assert_eq!(register(destination), wanted, "{destination:02X?}");
            assert_eq!(index(destination), place, "{destination:02X?}");
        }
    }

    #[test]
    fn exactly_one_of_the_one_bit_tables_takes_a_vector() {
        for (destination, _, place) in VECTORS {
            let taking: Vec<u32> = (0..64)
                .filter(|bit| {
                    let table = 1_u64 << bit;
                    selected(destination, (table >> 32) as u32, table as u32)
                })
                .collect();
            assert_eq!(taking, [place], "{destination:02X?}");
        }
    }

    #[test]
    fn exactly_one_of_the_all_but_one_tables_turns_a_vector_away() {
        for (destination, _, place) in VECTORS {
            for bit in 0..64 {
                let table = !(1_u64 << bit);
                let taken = selected(destination, (table >> 32) as u32, table as u32);
                assert_eq!(taken, bit != place, "{destination:02X?} {bit}");
            }
        }
    }

    /// The check sequence is the register complemented, and its number has x^31 in the lowest bit.
    #[test]
    fn the_register_is_the_check_sequence_complemented_and_turned_round() {
        let mut random = Random::new(4);
        let mut destinations = VECTORS.map(|(destination, ..)| destination).to_vec();
        for _ in 0..1_000 {
            let mut destination = [0; 6];
            destination.copy_from_slice(&random.bytes(6));
            destinations.push(destination);
        }
        for destination in destinations {
            let number = check::number(&destination);
            assert_eq!(register(destination), (!number).reverse_bits());
            let divided = u32::from_le_bytes(check::sequence_by_division(&destination));
            assert_eq!(register(destination), (!divided).reverse_bits());
        }
    }

    #[test]
    fn every_index_is_met() {
        let mut random = Random::new(5);
        let mut met = [false; 64];
        for _ in 0..2_000 {
            let mut destination = [0; 6];
            destination.copy_from_slice(&random.bytes(6));
            met[index(destination) as usize] = true;
        }
        assert_eq!(met, [true; 64]);
    }
}
