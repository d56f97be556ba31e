//! Events and their byte strings.

use crate::random::Random;
use crate::trace::{events, starts, whole_events, Event};

fn one_of_each() -> Vec<Event> {
    vec![
        Event::Write {
            offset: 0x0000_0408,
            value: 0x1234_5678,
        },
        Event::Grant {
            address: 0x0400_0010,
        },
        Event::Frame {
            bytes: vec![0xAA, 0xBB],
        },
        Event::Frame { bytes: vec![] },
        Event::Send,
    ]
}

#[test]
fn the_bytes_of_each_event() {
    let bytes = Event::list(&one_of_each());
    let wanted = [
        &[1, 0x08, 4, 0, 0, 0x78, 0x56, 0x34, 0x12][..],
        &[2, 0x10, 0, 0, 4],
        &[3, 2, 0, 0, 0, 0xAA, 0xBB],
        &[3, 0, 0, 0, 0],
        &[4],
    ];
    assert_eq!(bytes, wanted.concat());
    assert_eq!(starts(&bytes), Some(vec![0, 9, 14, 21, 26]));
}

#[test]
fn events_come_back() {
    let list = one_of_each();
    let back: Vec<Event> = events(&Event::list(&list)).collect();
    assert_eq!(back, list);
    assert_eq!(events(&[]).count(), 0);
    assert_eq!(starts(&[]), Some(vec![]));
}

#[test]
fn every_cut_inside_an_event_is_no_list() {
    let bytes = Event::list(&one_of_each());
    let whole = [0, 9, 14, 21, 26, 27];
    for length in 0..=bytes.len() {
        assert_eq!(starts(&bytes[..length]).is_some(), whole.contains(&length));
    }
}

#[test]
fn a_frame_longer_than_any_list_is_cut() {
    assert_eq!(starts(&[3, 0xFF, 0xFF, 0xFF, 0xFF, 4]), None);
    assert_eq!(starts(&[3, 0, 0, 0, 0x80]), None);
}

#[test]
fn first_bytes_that_no_event_has() {
    for first in 0..=255 {
        let mut list = vec![first];
        list.extend([0; 8]);
        // Behind a send its zeros are no event; the others take 9, 5 and 5 bytes.
        let wanted = first == 1;
        assert_eq!(starts(&list).is_some(), wanted);
        let known = starts(&list[..5]).is_some() || starts(&list[..1]).is_some() || wanted;
        assert_eq!(known, (1..=4).contains(&first));
    }
}

#[test]
fn random_lists_come_back() {
    let mut random = Random::new(9);
    for _ in 0..200 {
        let list: Vec<Event> = (0..random.below(20))
            .map(|_| match random.below(4) {
                0 => Event::Write {
                    offset: random.word(),
                    value: random.word(),
                },
                1 => Event::Grant {
                    address: random.word(),
                },
                2 => {
                    let length = random.below(700);
                    Event::Frame {
                        bytes: random.bytes(length),
                    }
                }
                _ => Event::Send,
            })
            .collect();
        let bytes = Event::list(&list);
        assert_eq!(events(&bytes).collect::<Vec<_>>(), list);
        assert_eq!(starts(&bytes).map(|starts| starts.len()), Some(list.len()));
    }
}

#[test]
fn whole_events_at_the_front_of_any_bytes() {
    let write = Event::Write {
        offset: 0x48,
        value: 3,
    };
    let whole = vec![Event::Send, write, Event::Grant { address: 16 }];
    let bytes = Event::list(&whole);
    for behind in [&[][..], &[0], &[1, 2, 3], &[3, 9, 0, 0], &[5, 4, 4]] {
        let all = [&bytes[..], behind].concat();
        let found: Vec<Event> = whole_events(&all).collect();
        assert_eq!(found, whole);
    }
    for end in 0..bytes.len() {
        let found = whole_events(&bytes[..end]).count();
        let wanted = [1, 10, 15].iter().filter(|size| end >= **size).count();
        assert_eq!(found, wanted);
    }
}
