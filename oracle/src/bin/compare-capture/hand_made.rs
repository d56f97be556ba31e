//! Lists and captures cut at every place, frames of every length at a limit, every wrong field, and rooms
//! of every length that matters.

use crate::compare::Comparison;
use oracle::capture::{header, list, record, Time, Timed};
use oracle::check;
use oracle::films::{self, Film, FrameList, Rooms, Shape, FIELDS, SHAPES};
use oracle::random::Random;

pub fn compare(comparison: &mut Comparison) -> Result<(), String> {
    let random = &mut Random::new(0xCA47);
    lists(comparison, random).map_err(|text| format!("a list made by hand\n{text}"))?;
    captures(comparison, random).map_err(|text| format!("a capture made by hand\n{text}"))
}

fn frame(length: usize, random: &mut Random) -> Timed {
    let frame = match length.checked_sub(4) {
        Some(message) => check::closed(&random.bytes(message)),
        None => random.bytes(length),
    };
    let time = films::time(random);
    Timed { time, frame }
}

fn lists(comparison: &mut Comparison, random: &mut Random) -> Result<(), String> {
    // Every length at a limit, alone and behind a right frame, with a right check and a wrong one.
    let lengths = (0..=13).chain(58..=70).chain(1_510..=1_524);
    for length in lengths.chain([2_047, 4_096, 65_535, 65_536, 70_000]) {
        let mut frames = vec![frame(length, random)];
        export(comparison, &frames, random)?;
        frames.insert(0, frame(64, random));
        export(comparison, &frames, random)?;
        if let Some(byte) = frames[1].frame.last_mut() {
            *byte ^= 0x80;
            export(comparison, &frames, random)?;
        }
    }
    // Two short entries cut at every place, and with every room.
    let frames = [frame(64, random), frame(65, random)];
    let bytes = list::made(&frames);
    for cut in 0..=bytes.len() {
        let room = random.bytes(200);
        lent(comparison, &bytes[..cut], room)?;
    }
    for room in 0..=header::SIZE + bytes.len() + 4 {
        lent(comparison, &bytes, random.bytes(room))?;
    }
    for room in 0..=header::SIZE + 2 {
        lent(comparison, &[], random.bytes(room))?;
    }
    Ok(())
}

/// Exports a list of frames into exactly enough room.
fn export(
    comparison: &mut Comparison,
    frames: &[Timed],
    random: &mut Random,
) -> Result<(), String> {
    let bytes = list::made(frames);
    let room = random.bytes(header::SIZE + bytes.len());
    lent(comparison, &bytes, room)
}

fn lent(comparison: &mut Comparison, bytes: &[u8], room: Vec<u8>) -> Result<(), String> {
    comparison.export(&FrameList {
        filling: "made by hand",
        damage: "made by hand",
        bytes: bytes.to_vec(),
        room,
    })
}

fn captures(comparison: &mut Comparison, random: &mut Random) -> Result<(), String> {
    for shape in SHAPES {
        for _ in 0..4 {
            let film = shape.make(random);
            comparison.import(&film, &Rooms::new(&film, random))?;
        }
    }
    // Every wrong field, many times over; two of them; and all three.
    for _ in 0..200 {
        for first in 0..FIELDS.len() {
            let mut film = Shape::Office.make(random);
            for (more, field) in FIELDS[first..].iter().enumerate() {
                let name = field.put(&mut film, random);
                film.kind = match more {
                    0 => format!("wrong field: {name}"),
                    _ => "wrong fields".to_string(),
                };
                comparison.import(&film, &Rooms::new(&film, random))?;
            }
        }
    }
    // Every byte of the header of a good capture, each with one bit off.
    for bit in 0..8 * header::SIZE {
        let mut film = Shape::Office.make(random);
        film.bytes[bit / 8] ^= 1 << (bit % 8);
        film.kind = "header with one bit off".to_string();
        comparison.import(&film, &Rooms::new(&film, random))?;
    }
    let time = Time {
        seconds: 0x0102_0304,
        microseconds: 0xA1B2_C3D4,
    };
    let records = [record::made(time, &[1, 2, 3]), record::made(time, &[])];
    let whole = [header::made().to_vec(), records.concat()].concat();
    // Cut at every place, and with every two rooms.
    for cut in 0..=whole.len() {
        import(comparison, &whole[..cut], [40, 20], random)?;
    }
    for events in (0..=24).chain([26]) {
        for times in (0..=17).chain([24]) {
            import(comparison, &whole, [events, times], random)?;
        }
    }
    import(comparison, &header::made(), [0, 0], random)?;
    // Every one of the first record's lengths, equal and unequal.
    for captured in 0..=20 {
        for original in [captured, 3, captured + 1, captured | 0x100] {
            let mut bytes = whole.clone();
            let head = header::SIZE;
            bytes[head + record::CAPTURED] = captured as u8;
            let place = head + record::ORIGINAL;
            bytes[place..place + 2].copy_from_slice(&(original as u16).to_le_bytes());
            import(comparison, &bytes, [60, 40], random)?;
        }
    }
    Ok(())
}

fn import(
    comparison: &mut Comparison,
    bytes: &[u8],
    [events, times]: [usize; 2],
    random: &mut Random,
) -> Result<(), String> {
    let film = Film {
        kind: "made by hand".to_string(),
        bytes: bytes.to_vec(),
        starts: Vec::new(),
    };
    let rooms = Rooms {
        events: random.bytes(events),
        times: random.bytes(times),
    };
    comparison.import(&film, &rooms)
}
