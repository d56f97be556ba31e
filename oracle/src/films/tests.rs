//! The generators make what they say, and the wrong readings are wrong in their own way alone.

use super::frames::WRONGS;
use super::*;
use crate::capture::{self, export, first_wrong, import, list};
use crate::random::Random;

/// What the model answers to a list.
fn export_number(list: &FrameList) -> u32 {
    export(&list.bytes, &mut list.room.clone()).number
}

fn import_number(film: &Film, rooms: &Rooms) -> u32 {
    let mut rooms = rooms.clone();
    import(&film.bytes, &mut rooms.events, &mut rooms.times).number
}

#[test]
fn good_captures_are_good_and_of_every_shape() {
    let random = &mut Random::new(31);
    let mut met = Vec::new();
    for _ in 0..400 {
        let film = good(random);
        let records = capture::records(&film.bytes).expect("a good capture is not refused");
        assert_eq!(records.len(), film.starts.len());
        met.push(film.kind);
    }
    for shape in SHAPES {
        assert!(met.contains(&format!("good {shape:?}")), "{shape:?}");
    }
}

#[test]
fn each_field_is_told_by_its_number() {
    let random = &mut Random::new(32);
    let names: Vec<String> = field_names().collect();
    for _ in 0..400 {
        for (field, number) in FIELDS.into_iter().zip([32, 33, 34]) {
            let mut film = good(random);
            let name = field.put(&mut film, random);
            assert!(names.contains(&name), "{name}");
            let found = capture::records(&film.bytes).err();
            assert_eq!(found, Some(number), "{name}");
        }
    }
}

#[test]
fn each_fault_of_a_record_is_told_by_its_number() {
    let random = &mut Random::new(33);
    for fault in RECORD_FAULTS {
        let mut met = 0;
        for _ in 0..200 {
            let mut film = good(random);
            let place = random.below(film.starts.len().max(1));
            if fault.put(&mut film, place, random).is_some() {
                met += 1;
                let found = capture::records(&film.bytes).err();
                assert_eq!(found, Some(fault.number()), "{fault:?}");
            }
        }
        assert!(met > 100, "{fault:?}: {met}");
    }
}

#[test]
fn wrong_frames_are_wrong() {
    let random = &mut Random::new(34);
    for _ in 0..200 {
        for (wrong, number) in WRONGS.into_iter().zip([4, 4, 4, 4, 5]) {
            let frame = frames::wrong(wrong, random);
            let time = time(random);
            let frames = [capture::Timed { time, frame }];
            assert_eq!(first_wrong(&frames), Some(number), "{wrong:?}");
        }
        let frame = frames::right(random);
        let time = time(random);
        assert_eq!(first_wrong(&[capture::Timed { time, frame }]), None);
    }
}

#[test]
fn the_first_of_all_refusals_is_given() {
    for seed in 0..2_000 {
        let list = FrameList::random(seed);
        let refusals = of_export(&list.bytes, list.room.len());
        let first = refusals.first().copied().unwrap_or_default();
        assert_eq!(first, export_number(&list), "{seed} {refusals:?}");

        let film = random(seed);
        let rooms = Rooms::new(&film, &mut Random::new(!seed));
        let refusals = of_import(&film.bytes, rooms.events.len(), rooms.times.len());
        let first = refusals.first().copied().unwrap_or_default();
        assert_eq!(first, import_number(&film, &rooms), "{seed} {refusals:?}");
    }
}

#[test]
fn damaged_lists_are_most_often_cut() {
    for damage in &DAMAGES[1..] {
        let lists: Vec<FrameList> = (0..4_000)
            .map(FrameList::random)
            .filter(|list| list.damage == *damage)
            .collect();
        let cut = lists
            .iter()
            .filter(|list| list::frames(&list.bytes).is_none())
            .count();
        assert!(lists.len() > 50 && cut > lists.len() / 2, "{damage}: {cut}");
    }
}

/// Without a slip the readings that the slips are told by are the model's own.
#[test]
fn the_reading_without_a_slip_is_right() {
    for seed in 0..2_000 {
        let film = random(seed);
        let rooms = Rooms::new(&film, &mut Random::new(!seed));
        let (events, times) = (rooms.events.len(), rooms.times.len());
        let found = import_slips::import(&film.bytes, events, times, None);
        let number = found.as_ref().err().copied().unwrap_or_default();
        assert_eq!(number, import_number(&film, &rooms), "{seed}");
        if let Ok(found) = found {
            let records = capture::records(&film.bytes).expect("it is not refused");
            assert!(found
                .iter()
                .map(|found| found.record())
                .eq(records.iter().copied()));
        }
        let list = FrameList::random(seed);
        let mut room = list.room.clone();
        let exported = export(&list.bytes, &mut room);
        let wanted = match exported.number {
            0 => Ok(room[24..exported.bytes as usize].to_vec()),
            number => Err(number),
        };
        let right = export_slips::right(&list.bytes, list.room.len());
        assert_eq!(right, wanted, "{seed}");
    }
}

#[test]
fn every_slip_is_caught() {
    let mut exports = Vec::new();
    let mut imports = Vec::new();
    for seed in 0..2_000 {
        let list = FrameList::random(seed);
        exports.extend(ExportSlip::caught(&list.bytes, list.room.len()));
        let film = random(seed);
        let rooms = Rooms::new(&film, &mut Random::new(!seed));
        let (events, times) = (rooms.events.len(), rooms.times.len());
        imports.extend(ImportSlip::caught(&film.bytes, events, times));
    }
    for slip in ExportSlip::ALL {
        let count = exports.iter().filter(|other| **other == slip).count();
        assert!(count > 10, "{slip:?}: {count}");
    }
    for slip in ImportSlip::ALL {
        let count = imports.iter().filter(|other| **other == slip).count();
        assert!(count > 10, "{slip:?}: {count}");
    }
}
