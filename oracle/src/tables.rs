//! Hash tables for the comparisons, as 64 bits: the high register is the upper half.

use crate::hash;
use crate::random::Random;

/// How a hash table stands to the destination that it is made for.
#[derive(Clone, Copy, Debug, PartialEq, Eq, PartialOrd, Ord)]
pub enum Table {
    Zero,
    Ones,
    Random,
    OneBit,
    AllButOneBit,
    OnlyItsBit,
    AllButItsBit,
    OnlySlips,
}

impl Table {
    pub const ALL: [Table; 8] = [
        Table::Zero,
        Table::Ones,
        Table::Random,
        Table::OneBit,
        Table::AllButOneBit,
        Table::OnlyItsBit,
        Table::AllButItsBit,
        Table::OnlySlips,
    ];

    /// A table of this kind for a destination.
    pub fn make(self, destination: [u8; 6], random: &mut Random) -> u64 {
        let its_bit = 1 << hash::index(destination);
        match self {
            Table::Zero => 0,
            Table::Ones => u64::MAX,
            Table::Random => random.draw(),
            Table::OneBit => 1 << random.below(64),
            Table::AllButOneBit => !(1 << random.below(64)),
            Table::OnlyItsBit => its_bit,
            Table::AllButItsBit => !its_bit,
            Table::OnlySlips => slips(destination) & !its_bit,
        }
    }
}

/// The bits that a slip would ask: the other register, the complement, the lowest powers instead of
/// the highest, and each of them with the powers the other way round.
fn slips(destination: [u8; 6]) -> u64 {
    let register = hash::register(destination);
    let turned = register.reverse_bits();
    let indexes = [register >> 26, register & 63, turned >> 26, turned & 63];
    let slips = indexes
        .iter()
        .flat_map(|index| [*index, index ^ 32, 63 - index]);
    slips.fold(0, |table, index| table | 1 << index)
}

#[cfg(test)]
mod tests {
    use super::*;
    use crate::hash_vectors::VECTORS;

    #[test]
    fn tables_by_the_destinations_own_bit() {
        let mut random = Random::new(8);
        for (destination, _, index) in VECTORS {
            let mut held = |kind: Table| kind.make(destination, &mut random) >> index & 1 == 1;
            assert!(held(Table::Ones));
            assert!(held(Table::OnlyItsBit));
            assert!(!held(Table::Zero));
            assert!(!held(Table::AllButItsBit));
            assert!(!held(Table::OnlySlips));
        }
    }
}
