//! Filter registers for the address rule: every mode, most often the two that take groups, and hash
//! tables made for the frame.

use crate::expected;
use oracle::address::{Filter, ALL_MULTICAST_MODE, FILTER_MODE_SHIFT, HASH_MODE, RECEIVE_ALL};
use oracle::random::Random;
use oracle::tables::Table;
use oracle::tally::Tally;

pub fn random_filter(
    frame: &[u8],
    station: [u8; 6],
    random: &mut Random,
    tally: &mut Tally,
) -> Filter {
    let mode = match random.below(8) {
        0..=3 => HASH_MODE,
        4 | 5 => ALL_MULTICAST_MODE,
        _ => random.below(8) as u32,
    };
    let receive_all = random.once_in(4);
    let mut control = mode << FILTER_MODE_SHIFT;
    if receive_all {
        control |= RECEIVE_ALL;
    }
    if random.once_in(2) {
        let filter = RECEIVE_ALL | 0b111 << FILTER_MODE_SHIFT;
        control |= random.word() & !filter;
    }
    let table = random.pick(&Table::ALL);
    // A frame too short for a destination is accepted by no table.
    let destination = frame.first_chunk().copied().unwrap_or(station);
    let mut filter = Filter {
        control,
        ..Filter::of_station(station).with_table(table.make(destination, random))
    };
    if random.once_in(16) {
        tally.met("high register with reserved bits set");
        filter.high |= random.word() << 16 | 1 << 16;
    }
    tally.met(format!("hash table {table:?}"));
    tally.met(expected::mode_name(mode));
    tally.met(expected::receive_all_name(mode, receive_all));
    filter
}
