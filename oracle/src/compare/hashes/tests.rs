use super::*;
use crate::address::RECEIVE_ALL;

const GROUP: &[u8] = b"frame 010000000000";
const HASHING: u32 = 1 << 17;

fn counted(lines: &[(&[u8], &str)], control: u32) -> Tally {
    let filter = Filter {
        control,
        ..Filter::of_station([2; 6])
    };
    let mut tally = Tally::default();
    for (line, answer) in lines {
        count(&mut tally, line, answer, &filter);
    }
    tally
}

fn both(tally: &Tally) -> (usize, usize) {
    (
        tally.count("frame accepted by hash"),
        tally.count("frame refused by hash"),
    )
}

#[test]
fn only_frames_that_came_to_the_rule_count() {
    let answers = [0, 3, 4, 5, 6, 7, 8, 11].map(|number| format!("frame {number}"));
    let lines: Vec<(&[u8], &str)> = answers.iter().map(|text| (GROUP, &text[..])).collect();
    let tally = counted(&lines, HASHING);
    assert_eq!(both(&tally), (3, 1));
    assert_eq!(tally.count("frame alone accepted by hash"), 3);
    assert_eq!(tally.count("frame at the address rule in mode 1"), 4);
}

#[test]
fn only_groups_in_the_hash_mode_count() {
    let frames: [(&[u8], &str); 3] = [
        (b"frame ffffffffffff", "frame 0"),
        (b"frame 020000000000", "frame 6"),
        (b"frame 0100000000", "error 3"),
    ];
    assert_eq!(both(&counted(&frames, HASHING)), (0, 0));
    let group = [(GROUP, "frame 0")];
    assert_eq!(both(&counted(&group, HASHING | RECEIVE_ALL)), (0, 0));
    for mode in (0..8).filter(|mode| *mode != 1) {
        assert_eq!(both(&counted(&group, mode << 17)), (0, 0));
    }
}

#[test]
fn frames_of_a_burst_count_one_by_one() {
    let line = b"burst 4 030000000000ffffffffffff 0 6 0 6 1 12 6 6";
    let tally = counted(&[(line, "burst 0 6 8 16 0")], HASHING);
    assert_eq!(both(&tally), (1, 1));
    assert_eq!(tally.count("frame in a burst refused by hash"), 1);
    let refused = [(&line[..], "burst 16 99 99 99 99")];
    assert_eq!(both(&counted(&refused, HASHING)), (0, 0));
}

#[test]
fn accesses_are_counted_by_offset() {
    let lines: [(&[u8], &str); 4] = [
        (b"read 40C", "read 0 00000000"),
        (b"write 0000040c 1", "write 0"),
        (b"read 411", "read 2 00000000"),
        (b"write 410", "error 4"),
    ];
    let tally = counted(&lines, 0);
    assert_eq!(tally.count("read at 40c"), 1);
    assert_eq!(tally.count("write at 40c"), 1);
    assert_eq!(tally.count("read at 411"), 1);
    assert_eq!(tally.count("write at 410"), 0);
}
