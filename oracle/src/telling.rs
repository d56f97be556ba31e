//! Cases in which two lines of the address rule speak of a frame, each with another answer, so that
//! its number tells which of them comes first. There are more: a broadcast in mode 0 tells it too.

use crate::address::{Filter, ALL_MULTICAST_MODE, BROADCAST, HASH_MODE};
use crate::hash;

pub const CASES: [&str; 10] = [
    "receive-all, to FF-FF-FF-FF-FF-FF",
    "receive-all, to a group that all-multicast would take",
    "receive-all, to a group that the hash would take",
    "receive-all, to the own address",
    "broadcast in hash mode, its hash bit set",
    "broadcast in hash mode, its hash bit clear",
    "broadcast with all-multicast selected",
    "broadcast, and the station is FF-FF-FF-FF-FF-FF",
    "group taken, and it is the station",
    "group not taken, and it is the station",
];

/// Each of the cases that a frame is with these registers.
pub fn cases(frame: &[u8], filter: &Filter) -> Vec<&'static str> {
    let Some(destination) = frame.first_chunk::<6>() else {
        return Vec::new();
    };
    let broadcast = *destination == BROADCAST;
    let group = destination[0] & 1 == 1 && !broadcast;
    let station = *destination == filter.station();
    let bit = hash::selected(*destination, filter.hash_high, filter.hash_low);
    let hashing = filter.mode() == HASH_MODE;
    let all_multicast = filter.mode() == ALL_MULTICAST_MODE;
    let selected = all_multicast || hashing && bit;
    let all = filter.receive_all();
    let tests = [
        all && broadcast,
        all && group && all_multicast,
        all && group && hashing && bit,
        all && station && !group && !broadcast,
        !all && broadcast && hashing && bit,
        !all && broadcast && hashing && !bit,
        !all && broadcast && all_multicast,
        !all && broadcast && station,
        !all && group && station && selected,
        !all && group && station && !selected,
    ];
    let names = CASES.into_iter().zip(tests);
    names.filter(|(_, is)| *is).map(|(name, _)| name).collect()
}

#[cfg(test)]
mod tests {
    use super::*;
    use crate::address::{FILTER_MODE_SHIFT, RECEIVE_ALL};

    const OWN: [u8; 6] = [2, 0, 0, 0, 0, 1];
    /// Index 3: bit 3 of the low register.
    const PAUSE: [u8; 6] = [0x01, 0x80, 0xC2, 0x00, 0x00, 0x01];
    const OTHER: [u8; 6] = [2, 0, 0, 0, 0, 2];

    /// What a frame to a destination is, and its number.
    fn case(
        station: [u8; 6],
        control: u32,
        table: u64,
        destination: [u8; 6],
    ) -> (Vec<&'static str>, u32) {
        let filter = Filter {
            control,
            ..Filter::of_station(station).with_table(table)
        };
        (cases(&destination, &filter), filter.answer(&destination))
    }

    #[test]
    fn each_case_and_its_number() {
        let mode = |mode: u32| mode << FILTER_MODE_SHIFT;
        let all = |mode: u32| RECEIVE_ALL | mode << FILTER_MODE_SHIFT;
        let (bit, others) = (1 << 3, !(1 << 3));
        let found = [
            case(OWN, all(0), 0, BROADCAST),
            case(OWN, all(5), 0, PAUSE),
            case(OWN, all(1), bit, PAUSE),
            case(OWN, all(0), 0, OWN),
            // The bit of broadcast is that of index 63.
            case(OWN, mode(1), 1 << 63, BROADCAST),
            case(OWN, mode(1), !(1 << 63), BROADCAST),
            case(OWN, mode(5), 0, BROADCAST),
            case(BROADCAST, mode(0), 0, BROADCAST),
            case(PAUSE, mode(5), 0, PAUSE),
            case(PAUSE, mode(1), others, PAUSE),
        ];
        let numbers = [4, 4, 4, 4, 2, 2, 2, 2, 3, 0];
        for ((name, found), number) in CASES.into_iter().zip(found).zip(numbers) {
            assert_eq!(found, (vec![name], number));
        }
    }

    #[test]
    fn under_receive_all_the_station_of_a_group_is_no_case_of_its_own() {
        let [to_all, by_multicast, by_hash, ..] = CASES;
        let all = |mode: u32| RECEIVE_ALL | mode << FILTER_MODE_SHIFT;
        for (station, mode, cases) in [
            (BROADCAST, 0, vec![to_all]),
            (BROADCAST, 1, vec![to_all]),
            (BROADCAST, 5, vec![to_all]),
            (PAUSE, 0, vec![]),
            (PAUSE, 1, vec![by_hash]),
            (PAUSE, 5, vec![by_multicast]),
        ] {
            assert_eq!(case(station, all(mode), u64::MAX, station), (cases, 4));
        }
    }

    #[test]
    fn what_one_line_alone_takes_is_none_of_them() {
        let mode = |mode: u32| mode << FILTER_MODE_SHIFT;
        for (found, number) in [
            (case(OWN, mode(0), 0, OWN), 1),
            (case(OWN, mode(0), 0, BROADCAST), 2),
            (case(OWN, mode(5), 0, PAUSE), 3),
            (case(OWN, mode(1), 1 << 3, PAUSE), 3),
            (case(OWN, RECEIVE_ALL, 0, OTHER), 4),
            (case(OWN, RECEIVE_ALL, u64::MAX, PAUSE), 4),
            (case(OWN, mode(0), u64::MAX, PAUSE), 0),
            (case(OWN, mode(1), 0, OTHER), 0),
        ] {
            assert_eq!(found, (vec![], number));
        }
        let filter = Filter::of_station(BROADCAST);
        assert!(cases(&BROADCAST[..5], &filter).is_empty());
        assert_eq!(cases(&BROADCAST, &filter).len(), 1);
    }
}
