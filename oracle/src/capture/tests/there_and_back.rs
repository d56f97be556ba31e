//! "An exported file imports to the same frames and times", and the other way round.

use crate::capture::{export, header, import, list, record, Time, Timed};
use crate::check;
use crate::random::Random;
use crate::trace::{events, Event};

fn random_time(random: &mut Random) -> Time {
    Time {
        seconds: random.word(),
        microseconds: random.word(),
    }
}

#[test]
fn an_exported_file_imports_to_the_same() {
    let random = &mut Random::new(21);
    for _ in 0..100 {
        let frames: Vec<Timed> = (0..random.below(5))
            .map(|_| Timed {
                time: random_time(random),
                frame: check::closed(&{
                    let length = random.between(60, 1_514);
                    random.bytes(length)
                }),
            })
            .collect();
        let list = list::made(&frames);
        let mut file = vec![0; 24 + list.len()];
        assert_eq!(export(&list, &mut file).number, 0);
        let (mut room, mut times) = (vec![0; list.len()], vec![0; 8 * frames.len()]);
        let imported = import(&file, &mut room, &mut times);
        assert_eq!((imported.number, imported.frames), (0, frames.len() as u64));
        let wanted = frames.iter().map(|timed| Event::Frame {
            bytes: timed.frame.clone(),
        });
        assert!(events(&room[..imported.bytes as usize]).eq(wanted));
        let wanted: Vec<u8> = frames.iter().flat_map(|timed| timed.time.bytes()).collect();
        assert_eq!(times, wanted);
    }
}

#[test]
fn an_imported_file_is_exported_byte_for_byte() {
    let random = &mut Random::new(22);
    for _ in 0..100 {
        let mut file = header::made().to_vec();
        let count = random.below(5);
        for _ in 0..count {
            let length = random.between(60, 1_514);
            file.extend(record::made(random_time(random), &random.bytes(length)));
        }
        let (mut room, mut times) = (vec![0; file.len()], vec![0; 8 * count]);
        let imported = import(&file, &mut room, &mut times);
        assert_eq!((imported.number, imported.frames), (0, count as u64));
        let mut list = Vec::new();
        for (event, time) in events(&room[..imported.bytes as usize]).zip(times.chunks(8)) {
            let Event::Frame { bytes } = event else {
                panic!("an import makes frames alone");
            };
            list.extend([time, &(bytes.len() as u32).to_le_bytes(), &bytes].concat());
        }
        let mut back = vec![0; file.len()];
        assert_eq!(export(&list, &mut back).number, 0);
        assert_eq!(back, file);
    }
}
