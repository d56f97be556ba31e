//! Of several refusals the first is given.

use super::{time, timed, HEADER};
use crate::capture::{export, import, list, record};

#[test]
fn of_a_list() {
    let right = timed(1, 1, 64);
    let mut wrong = timed(1, 1, 64);
    wrong.frame[63] ^= 1;
    let short = timed(1, 1, 63);
    let bytes = |frames: &[&super::Timed]| -> Vec<u8> {
        frames
            .iter()
            .flat_map(|one| list::made(&[(*one).clone()]))
            .collect()
    };
    for (frames, cut, number) in [
        // A cut entry before every frame, and every frame before the room.
        (vec![&short, &wrong, &right], 1, 29),
        (vec![&wrong, &right], 70, 29),
        (vec![&right, &right], 0, 30),
        (vec![&right, &wrong], 0, 5),
        (vec![&right, &short], 0, 4),
        // The first that is wrong, whichever way.
        (vec![&wrong, &short], 0, 5),
        (vec![&short, &wrong], 0, 4),
    ] {
        let mut list = bytes(&frames);
        list.truncate(list.len() - cut);
        assert_eq!(export(&list, &mut []).number, number);
        let number = if number == 30 { 0 } else { number };
        assert_eq!(export(&list, &mut [0; 400]).number, number);
    }
}

#[test]
fn of_a_file() {
    let whole = || record::made(time(1, 1), &[7; 10]);
    let unequal = || {
        let mut record = whole();
        record[12] += 1;
        record
    };
    let cut = || {
        let mut record = unequal();
        record.truncate(20);
        record
    };
    // What is wrong with the header, from the link type on forwards; each comes before the later ones.
    let mut header = HEADER;
    for (records, number) in [
        (vec![whole(), whole()], 37),
        // Cut before unequal in one record; else the earlier record.
        (vec![whole(), cut()], 35),
        (vec![whole(), unequal(), cut()], 36),
        (vec![unequal(), whole()], 36),
    ] {
        let file = [header.to_vec(), records.concat()].concat();
        assert_eq!(import(&file, &mut [], &mut []).number, number);
    }
    let records = [unequal(), cut()].concat();
    for (place, number) in [(20, 34), (6, 33), (0, 32)] {
        header[place] ^= 0x80;
        let file = [&header[..], &records].concat();
        assert_eq!(import(&file, &mut [], &mut []).number, number);
    }
    assert_eq!(import(&header[..23], &mut [], &mut []).number, 31);
}
