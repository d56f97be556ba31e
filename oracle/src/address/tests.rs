use super::*;
use crate::hash_vectors::VECTORS;

const OWN: [u8; 6] = [2, 0, 0, 0, 0, 1];
const ALMOST: [u8; 6] = [0xFF, 0xFF, 0xFF, 0xFF, 0xFF, 0xFE];

/// Station 02-00-00-00-00-01 in a filter mode.
fn filter(mode: u32) -> Filter {
    Filter {
        control: mode << FILTER_MODE_SHIFT,
        ..Filter::of_station(OWN)
    }
}

/// The vectors that are group addresses, with their index.
fn groups() -> impl Iterator<Item = ([u8; 6], u32)> {
    let vectors = VECTORS.into_iter().filter(|vector| vector.0 != BROADCAST);
    vectors.map(|(destination, _, index)| (destination, index))
}

#[test]
fn the_station_in_wire_order() {
    assert_eq!(station(0x0000_0100, 0x0000_0002), OWN);
    assert_eq!(registers(OWN), (0x0000_0100, 0x0000_0002));
    assert_eq!(station(0x0000_0605, 0x0403_0201), [1, 2, 3, 4, 5, 6]);
    assert_eq!(station(0xFFFF_0605, 0x0403_0201), [1, 2, 3, 4, 5, 6]);
}

#[test]
fn a_table_has_the_high_register_in_its_upper_half() {
    let filter = filter(1).with_table(0x0123_4567_89AB_CDEF);
    assert_eq!(filter.hash_high, 0x0123_4567);
    assert_eq!(filter.hash_low, 0x89AB_CDEF);
}

#[test]
fn only_the_own_address_among_single_ones() {
    for mode in 0..8 {
        // The station branch stays, whatever the hash registers hold.
        for table in [0, u64::MAX] {
            let filter = filter(mode).with_table(table);
            assert!(filter.accepts(&OWN));
            assert!(!filter.accepts(&[2, 0, 0, 0, 0, 0]));
            assert!(!filter.accepts(&[0, 0, 0, 0, 0, 1]));
            assert!(!filter.accepts(&[0, 0, 0, 0, 0, 2]));
        }
    }
}

#[test]
fn broadcast_is_all_six_bytes() {
    for mode in 0..8 {
        assert!(filter(mode).accepts(&BROADCAST));
        assert_eq!(filter(mode).accepts(&ALMOST), mode == ALL_MULTICAST_MODE);
    }
}

#[test]
fn broadcast_does_not_ask_the_hash() {
    for bit in 0..64 {
        for table in [1 << bit, !(1 << bit)] {
            let filter = filter(HASH_MODE).with_table(table);
            assert!(filter.accepts(&BROADCAST));
            assert!(!filter.asks_hash(&BROADCAST));
        }
    }
}

#[test]
fn group_addresses_need_all_multicast_or_their_hash_bit() {
    for (group, index) in groups() {
        let modes = |table: u64| -> Vec<u32> {
            let taking = |mode: &u32| filter(*mode).with_table(table).accepts(&group);
            (0..8).filter(taking).collect()
        };
        assert_eq!(modes(0), [5]);
        assert_eq!(modes(!(1 << index)), [5]);
        assert_eq!(modes(1 << index), [1, 5]);
        assert_eq!(modes(u64::MAX), [1, 5]);
    }
}

#[test]
fn one_bit_tables_take_a_group_address_once() {
    for (group, index) in groups() {
        for bit in 0..64 {
            let filter = filter(HASH_MODE).with_table(1 << bit);
            assert!(filter.asks_hash(&group));
            assert_eq!(filter.accepts(&group), bit == index, "{group:02X?}");
        }
    }
}

#[test]
fn a_group_address_equal_to_the_station_is_still_a_group() {
    let station = [3, 0, 0, 0, 0, 1];
    let index = hash::index(station);
    let filter = Filter {
        control: HASH_MODE << FILTER_MODE_SHIFT,
        ..Filter::of_station(station)
    };
    assert!(!filter.accepts(&station));
    assert!(!filter.with_table(!(1 << index)).accepts(&station));
    assert_eq!(filter.with_table(1 << index).answer(&station), 3);
    assert!(!Filter::of_station(station).accepts(&station));
}

#[test]
fn the_broadcast_address_as_the_station_is_still_broadcast() {
    for mode in 0..8 {
        let filter = Filter {
            control: mode << FILTER_MODE_SHIFT,
            ..Filter::of_station(BROADCAST)
        };
        assert_eq!(filter.answer(&BROADCAST), 2);
        assert_eq!(filter.with_table(u64::MAX).answer(&BROADCAST), 2);
    }
}

/// The numbers of own, broadcast, a group that is not the hash's, one that is, and another station.
#[test]
fn the_first_rule_met_gives_the_number() {
    let pause = [0x01, 0x80, 0xC2, 0x00, 0x00, 0x01];
    let other = [2, 0, 0, 0, 0, 2];
    let answers = |filter: Filter| {
        [OWN, BROADCAST, ALMOST, pause, other].map(|destination| filter.answer(&destination))
    };
    // Bit 3 of the low register is that of the fourth.
    let answers_in = |mode: u32| answers(filter(mode).with_table(1 << 3));
    for mode in [0, 2, 3, 4, 6, 7] {
        assert_eq!(answers_in(mode), [1, 2, 0, 0, 0], "{mode}");
    }
    assert_eq!(answers_in(HASH_MODE), [1, 2, 0, 3, 0]);
    assert_eq!(answers_in(ALL_MULTICAST_MODE), [1, 2, 3, 3, 0]);
    for mode in 0..8 {
        let mut all = filter(mode).with_table(1 << 3);
        all.control |= RECEIVE_ALL;
        assert_eq!(answers(all), [4; 5], "{mode}");
    }
}

#[test]
fn accepted_is_every_number_but_0() {
    let destinations = [OWN, ALMOST, BROADCAST, [4; 6], [5; 6], [1; 6]];
    for control in (0..8).flat_map(|mode| [mode << 17, mode << 17 | RECEIVE_ALL]) {
        for destination in destinations {
            for length in 0..=6 {
                let filter = Filter {
                    control,
                    ..Filter::of_station(OWN).with_table(0x5555_5555_5555_5555)
                };
                let frame = &destination[..length];
                assert_eq!(filter.accepts(frame), filter.answer(frame) != 0);
                assert_eq!(filter.accepts(frame), filter.reason(frame).is_some());
            }
        }
    }
}

#[test]
fn receive_all_takes_anything_with_an_address() {
    let filter = Filter {
        control: RECEIVE_ALL | HASH_MODE << FILTER_MODE_SHIFT,
        ..Filter::of_station(OWN)
    };
    assert!(filter.accepts(&[4; 6]));
    assert!(!filter.accepts(&[2, 0, 0, 0, 0]));
    for (group, _) in groups() {
        assert!(filter.accepts(&group));
        assert!(!filter.asks_hash(&group));
    }
}

#[test]
fn under_six_bytes_nothing_is_accepted() {
    for (group, _) in groups() {
        let mut filter = filter(HASH_MODE).with_table(u64::MAX);
        assert_eq!(filter.answer(&group[..5]), 0);
        assert!(!filter.asks_hash(&group[..5]));
        assert_eq!(filter.answer(&group), 3);
        filter.control |= RECEIVE_ALL;
        assert_eq!(filter.answer(&group[..5]), 0);
        assert_eq!(filter.answer(&group), 4);
    }
}

#[test]
fn the_hash_decides_where_turning_every_bit_turns_the_answer() {
    let destinations = [OWN, ALMOST, BROADCAST, [4; 6], [5; 6], [1; 6]];
    for control in (0..8).flat_map(|mode| [mode << 17, mode << 17 | RECEIVE_ALL]) {
        for destination in destinations {
            let filter = Filter {
                control,
                ..Filter::of_station(OWN)
            };
            let with = |table| filter.with_table(table).accepts(&destination);
            let turned = with(0) != with(u64::MAX);
            assert_eq!(filter.asks_hash(&destination), turned);
        }
    }
}
