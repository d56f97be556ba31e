//! The vectors of the hash, held against the model's C function in every filter mode, with
//! receive-all and without.

use crate::compare::Comparison;
use oracle::address::{Filter, ALL_MULTICAST_MODE, FILTER_MODE_SHIFT, HASH_MODE, RECEIVE_ALL};
use oracle::hash_vectors::VECTORS;
use oracle::verdict::STATION;

/// What the C function answers by the vectors, none of which is the station's address.
const NOT_TAKEN: u32 = 0;
const BROADCAST: u32 = 2;
const GROUP: u32 = 3;
const BY_RECEIVE_ALL: u32 = 4;

/// Each vector with each table of one bit, and of all bits but one. What must come out goes by the
/// index that stands in the vector.
pub fn compare(comparison: &mut Comparison) -> Result<(), String> {
    for (destination, _, index) in VECTORS {
        for bit in 0..64 {
            let own = bit == index;
            for (table, held) in [(1 << bit, own), (!(1 << bit), !own)] {
                for mode in 0..8 {
                    let mut filter = Filter {
                        control: mode << FILTER_MODE_SHIFT,
                        ..Filter::of_station(STATION).with_table(table)
                    };
                    let wanted = match mode {
                        _ if destination == [0xFF; 6] => BROADCAST,
                        ALL_MULTICAST_MODE => GROUP,
                        HASH_MODE if held => GROUP,
                        _ => NOT_TAKEN,
                    };
                    comparison.tally.met("hash vector in a filter mode");
                    comparison.address_rule(&destination, &filter, wanted)?;
                    filter.control |= RECEIVE_ALL;
                    comparison.address_rule(&destination, &filter, BY_RECEIVE_ALL)?;
                }
            }
        }
    }
    Ok(())
}
