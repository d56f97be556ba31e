//! Group addresses for the comparisons.

use crate::address::Filter;
use crate::hash;
use crate::hash_vectors::VECTORS;
use crate::random::Random;

/// How often an address is drawn until the hash gives the wanted answer. A table with one bit is
/// met once in 64 draws.
const DRAWS: usize = 1_000;

/// Any group address but broadcast: random ones, those of IP groups, and the vectors.
pub fn any(random: &mut Random) -> [u8; 6] {
    let mut address = [0; 6];
    address.copy_from_slice(&random.bytes(6));
    address[0] |= 1;
    match random.below(8) {
        0 => address[..3].copy_from_slice(&[0x01, 0x00, 0x5E]),
        1 => address[..2].copy_from_slice(&[0x33, 0x33]),
        2 => address = random.pick(&VECTORS).0,
        _ => {}
    }
    if address == [0xFF; 6] {
        // Broadcast is no group to the address rule.
        address[5] = 0xFE;
    }
    address
}

/// A group address whose hash bit stands at `level`; any other one if the table has none.
pub fn at_level(filter: &Filter, level: bool, random: &mut Random) -> [u8; 6] {
    let mut address = any(random);
    let other_level = if level { 0 } else { u32::MAX };
    if [filter.hash_high, filter.hash_low] == [other_level; 2] {
        return address;
    }
    for _ in 0..DRAWS {
        if hash::selected(address, filter.hash_high, filter.hash_low) == level {
            break;
        }
        address = any(random);
    }
    address
}

#[cfg(test)]
mod tests {
    use super::*;

    #[test]
    fn all_are_groups_and_none_is_broadcast() {
        let mut random = Random::new(6);
        for _ in 0..1_000 {
            let address = any(&mut random);
            assert_eq!(address[0] & 1, 1);
            assert_ne!(address, [0xFF; 6]);
        }
    }

    #[test]
    fn both_levels_are_found_where_there_are_both() {
        let mut random = Random::new(7);
        for bit in 0..64 {
            for table in [1 << bit, !(1 << bit)] {
                let filter = Filter::of_station([2; 6]).with_table(table);
                for level in [false, true] {
                    let address = at_level(&filter, level, &mut random);
                    let held = table >> hash::index(address) & 1 == 1;
                    assert_eq!(held, level, "{bit}");
                }
            }
        }
    }
}
