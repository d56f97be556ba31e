//! The generators make what they say.

use super::*;
use crate::delivered::Delivered;
use crate::random::Random;
use crate::taken::Taken;
use crate::trace;
use crate::ungranted::Ungranted;

#[test]
fn good_traces_are_good_and_of_every_shape() {
    let mut random = Random::new(11);
    let mut met: Vec<String> = Vec::new();
    for _ in 0..400 {
        let tape = good(&mut random);
        let content = trace::content(&tape.bytes).unwrap_or_else(|fault| {
            panic!("{} has {fault:?}", tape.kind);
        });
        assert_eq!(content.count as usize, tape.starts.len());
        assert_eq!(content.header.length as usize, tape.image.len());
        let used = tape.used(tape.blocks() - 1);
        match tape.kind.as_str() {
            "Full" => assert_eq!(used, 504),
            "OneByte" => assert_eq!(used, 1),
            "OneLess" => assert_eq!(used, 503),
            "Empty" => assert_eq!((tape.bytes.len(), used), (512, 6)),
            _ => {}
        }
        met.push(tape.kind);
    }
    for shape in SHAPES {
        assert!(met.contains(&format!("{shape:?}")), "{shape:?}");
    }
}

/// Everything that 400 good traces meet, each replayed on its own image.
fn met_in_good<T>(
    seed: u64,
    in_events: impl Fn(u32, u64, &[u8], Vec<u8>, Vec<u8>) -> Vec<T>,
) -> Vec<T> {
    let mut random = Random::new(seed);
    let mut met = Vec::new();
    for _ in 0..400 {
        let tape = good(&mut random);
        let content = trace::content(&tape.bytes).expect("a good trace has no bad block");
        let Header { base, length } = content.header;
        let (list, output) = (content.events, vec![0; 1_518]);
        met.extend(in_events(base, length.into(), &list, tape.image, output));
    }
    met
}

#[test]
fn good_traces_meet_every_kind_of_8() {
    let met = met_in_good(16, Ungranted::in_events);
    for kind in Ungranted::all() {
        let count = met.iter().filter(|other| **other == kind).count();
        assert!(count > 50, "{kind}: {count}");
    }
}

#[test]
fn good_traces_deliver_by_every_reason() {
    let met = met_in_good(18, Delivered::in_events);
    for taken in Taken::ALL {
        let of = |left: bool| {
            let wanted = Delivered { taken, left };
            met.iter().filter(|other| **other == wanted).count()
        };
        let (overwritten, left) = (of(false), of(true));
        assert!(overwritten + left > 20, "{taken}: {overwritten}, {left}");
        assert!(left > 5, "{taken}: {left}");
    }
}

#[test]
fn each_fault_is_told_by_its_number() {
    let mut random = Random::new(12);
    let names: Vec<String> = fault_names().collect();
    for _ in 0..400 {
        let tape = good(&mut random);
        for (fault, number) in FAULTS.into_iter().zip([22, 21, 20, 18, 19, 17]) {
            let mut tape = tape.clone();
            let place = random.below(tape.blocks());
            let Some(name) = fault.put(&mut tape, place, &mut random) else {
                continue;
            };
            assert!(names.contains(&name), "{name}");
            let found = trace::content(&tape.bytes).err();
            let found = found.unwrap_or_else(|| panic!("{name} is no fault"));
            if name.contains("behind the last block") {
                // The block before is part-filled and no longer the last, or full.
                assert!([17, 20].contains(&found.reason), "{name} {found:?}");
                continue;
            }
            assert_eq!((found.reason, found.block), (number, place), "{name}");
        }
    }
}

#[test]
fn cut_events_are_cut() {
    let mut random = Random::new(13);
    let tapes = cut_events(&mut random);
    let bad = tapes
        .iter()
        .filter(|tape| trace::content(&tape.bytes).is_err());
    assert!(bad.count() > 200);
    for (place, tape) in cut_headers(&mut random).iter().enumerate() {
        let found = trace::content(&tape.bytes).err().map(|fault| fault.reason);
        assert_eq!(found, (place < 5).then_some(22));
    }
}

#[test]
fn of_two_faults_the_first_is_told() {
    let mut random = Random::new(14);
    let number = |name: &str| match name {
        "Event" => 22,
        "Fill" => 21,
        "Used" => 20,
        "Number" => 18,
        "Check" => 19,
        _ => 17,
    };
    let tapes = pairs_of_faults(&mut random);
    assert!(tapes.len() > 150);
    for tape in tapes {
        let words: Vec<&str> = tape.kind.split(' ').collect();
        let found = trace::content(&tape.bytes).err().expect("a bad block");
        let told = found.reason;
        let (first, last) = (number(words[0]), number(words[words.len() - 1]));
        match words[..] {
            // Bytes behind a part-filled last block make it a middle one.
            _ if told == 20 && (first == 17 || last == 17) => {}
            [_, "in", "an", ..] => assert_eq!(told, first, "{}", tape.kind),
            [_, "and", second, ..] => {
                let both = [first, number(second)];
                // A fault of the event may stand in data that another made unused.
                let least = both[0].min(both[1]);
                assert!(told == least || least == 17, "{} {told}", tape.kind);
            }
            _ => panic!("no pair: {}", tape.kind),
        }
    }
}

#[test]
fn on_days_of_traffic_frames_come_and_go() {
    let mut random = Random::new(17);
    let mut met = Vec::new();
    for _ in 0..50 {
        let tape = traffic(&mut random);
        let content = trace::content(&tape.bytes).expect("a good trace has no bad block");
        crate::programs::replay::play(&content, &tape.image, |event, answer, _| {
            let kind = match event {
                trace::Event::Frame { .. } => "frame",
                trace::Event::Send => "send",
                _ => return,
            };
            met.push((kind, answer.number));
        });
    }
    for (kind, numbers) in [("frame", &[0, 4, 5, 6, 8][..]), ("send", &[0, 3, 8, 12])] {
        for number in numbers {
            let count = met.iter().filter(|one| **one == (kind, *number)).count();
            assert!(count > 10, "{kind} {number}: {count}");
        }
    }
}
