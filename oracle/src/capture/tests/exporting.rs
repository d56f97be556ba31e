//! Export: the file, and what is refused.

use super::{message, time, timed, HEADER};
use crate::capture::{export, list, Exported, Timed};
use crate::check;

fn refused(number: u32) -> Exported {
    Exported {
        number,
        bytes: 0,
        frames: 0,
    }
}

#[test]
fn a_file_of_no_frames() {
    let mut room = [0xEE; 26];
    let wanted = Exported {
        number: 0,
        bytes: 24,
        frames: 0,
    };
    assert_eq!(export(&[], &mut room), wanted);
    assert_eq!(room[..24], HEADER);
    assert_eq!(room[24..], [0xEE; 2]);
}

#[test]
fn a_file_by_hand() {
    let frames = [
        Timed {
            time: time(0, 3),
            frame: check::closed(&message()),
        },
        timed(0x0102_0304, 0xFFFF_FFFF, 1_518),
    ];
    let mut wanted = HEADER.to_vec();
    wanted.extend([0, 0, 0, 0, 3, 0, 0, 0, 60, 0, 0, 0, 60, 0, 0, 0]);
    wanted.extend(message());
    // 1,514 is 5EA hex.
    wanted.extend([4, 3, 2, 1, 0xFF, 0xFF, 0xFF, 0xFF]);
    wanted.extend([0xEA, 5, 0, 0, 0xEA, 5, 0, 0]);
    wanted.extend([0x5A; 1_514]);
    let mut room = vec![0xEE; wanted.len() + 3];
    let exported = Exported {
        number: 0,
        bytes: 24 + 16 + 60 + 16 + 1_514,
        frames: 2,
    };
    let list = list::made(&frames);
    assert_eq!(export(&list, &mut room), exported);
    assert_eq!(wanted.len(), 24 + list.len());
    assert_eq!(room[..wanted.len()], wanted);
    assert_eq!(room[wanted.len()..], [0xEE; 3]);
}

#[test]
fn too_little_room() {
    let list = list::made(&[timed(1, 2, 64)]);
    for lent in [0, 24, 99] {
        let mut room = vec![0xEE; lent];
        assert_eq!(export(&list, &mut room), refused(30));
        assert_eq!(room, vec![0xEE; lent]);
    }
    assert_eq!(export(&list, &mut [0; 100]).number, 0);
    assert_eq!(export(&[], &mut [0; 23]), refused(30));
}

#[test]
fn lengths_and_checks() {
    for (length, number) in [(4, 4), (63, 4), (64, 0), (1_518, 0), (1_519, 4)] {
        let mut timed = timed(1, 2, length);
        let room = &mut vec![0; 2_000];
        assert_eq!(export(&list::made(&[timed.clone()]), room).number, number);
        timed.frame[length - 1] ^= 1;
        let number = if number == 0 { 5 } else { 4 };
        assert_eq!(export(&list::made(&[timed]), room).number, number);
    }
    for length in [0, 3, 11] {
        let frame = vec![0; length];
        let time = time(1, 2);
        let list = list::made(&[Timed { time, frame }]);
        assert_eq!(export(&list, &mut [0; 200]), refused(4));
    }
}
