//! Random cases: both engines on rings of their own, of which the events grant and use up some.

use crate::case::{Case, Lent};
use oracle::check;
use oracle::device::Counters;
use oracle::random::Random;
use oracle::trace::Event;

/// The bytes of each buffer, which takes a short frame and can be sent.
const SIZE: u32 = 80;
const NEXT_ENABLE: u32 = 1 << 14;
const VALID: u32 = 1 << 16;
const POLLING: u32 = 1;

/// The addresses of both rings, receiving first, of which each has this many descriptors.
struct Rings {
    receiving: Vec<u32>,
    sending: Vec<u32>,
}

pub fn case(random: &mut Random) -> Case {
    let counts = [(); 2].map(|()| random.between(1, 6) as u32);
    let window = (counts[0] + counts[1]) * (16 + SIZE) + 4 * random.below(4) as u32;
    let base = random.pick(&[0, 4, 0x0400_0000, 0_u32.wrapping_sub(window)]);
    let (rings, memory) = rings(base, window, counts, random);
    let value = time_out(random);
    let mut events = set_up(&rings, value, random);
    // In half of all cases the grants are left to the step run and the burst.
    let more = if random.once_in(2) {
        0
    } else {
        random.below(10)
    };
    for _ in 0..more {
        event(&mut events, &rings, random);
    }
    let count = events.len();
    let mut events = Event::list(&events);
    if random.once_in(6) {
        events.extend(random.pick(&[&[0][..], &[1, 2], &[3, 0], &[3, 200, 0, 0, 0, 1], &[9]]));
    }
    let (store, starts, lengths) = burst(random);
    let list = match random.below(16) {
        0 => starts.len() + 1,
        1 => starts.len().saturating_sub(1),
        _ => starts.len(),
    };
    let answers = match random.below(8) {
        0 => random.below(count + 1),
        1 => count + random.between(1, 5),
        _ => count,
    };
    let output = match random.below(8) {
        0 => random.pick(&[0, 1_517, 1_518, 1_600]),
        _ => random.between(6, 10) * 1_000,
    };
    let lent = Lent {
        memory,
        output: random.bytes(output),
        answers: (0..answers).map(|_| random.word()).collect(),
        list: (0..list).map(|_| random.word()).collect(),
    };
    let allowance = match random.below(12) {
        // Nothing is sent, so that the tick finds what the events left.
        0..=3 => 0,
        4 => random.pick(&[4_096, 4_097, u32::MAX]),
        _ => random.between(1, 8) as u32,
    };
    let mut case = Case {
        base,
        window,
        counters: counters(random),
        count: tick_count(value & 0xFFFF, random),
        events,
        allowance,
        store,
        starts,
        lengths,
        lent,
        more_found: match random.below(12) {
            0 => -(random.between(1, 9) as i64),
            1 => random.between(1, 4) as i64,
            _ => 0,
        },
    };
    match random.below(24) {
        0 => {
            let window = case.window as usize;
            let length = random.pick(&[0, window - 4, window + 4, window + 1]);
            case.lent.memory.resize(length, 0x5C);
        }
        // Windows that are not allowed; then nothing is lent, or what is has another length.
        1 => {
            case.base |= 2;
            if random.once_in(2) {
                case.lent.memory.clear();
            }
        }
        2 if random.once_in(2) => case.window -= 2,
        _ => {}
    }
    case
}

/// Each counter near its stop, at it, or anywhere.
fn counters(random: &mut Random) -> Counters {
    let mut counter = || match random.below(10) {
        0 => 0,
        1 => random.word(),
        2 | 3 => u32::MAX,
        4 | 5 => u32::MAX - random.between(1, 8) as u32,
        _ => u32::MAX - random.between(1, 4) as u32,
    };
    Counters {
        delivered: counter(),
        lost: counter(),
        sent: counter(),
    }
}

/// Any count, often one at or next to this value of the time-out.
fn tick_count(value: u32, random: &mut Random) -> u32 {
    match random.below(14) {
        0 => u32::MAX,
        1 => u32::MAX - random.below(4) as u32,
        2 => 0x1_0000 - random.below(3) as u32,
        3 => random.word(),
        4 => 0,
        5..=7 => value,
        8 => value.saturating_sub(1),
        9 => value + 1,
        _ => random.below(8) as u32,
    }
}

/// Both rings in a window full of random bytes, their descriptors from its base on and the buffers
/// behind them.
fn rings(base: u32, window: u32, counts: [u32; 2], random: &mut Random) -> (Rings, Vec<u8>) {
    let mut memory = random.bytes(window as usize);
    let all = counts[0] + counts[1];
    let address = |place: u32| base.wrapping_add(16 * place);
    let mut rings = [Vec::new(), Vec::new()];
    for (side, (first, count)) in [(0, counts[0]), (counts[0], counts[1])]
        .into_iter()
        .enumerate()
    {
        for place in 0..count {
            let own = first + place;
            let next = address(first + (place + 1) % count);
            let goes_on = if random.once_in(10) { 0 } else { NEXT_ENABLE };
            let polling = if random.once_in(6) { 0 } else { POLLING };
            let size = match random.below(24) {
                0 => random.pick(&[13, 40, 60]),
                _ => SIZE,
            };
            let words = [
                size | goes_on,
                base.wrapping_add(16 * all + SIZE * own),
                next | polling,
                random.pick(&[0, VALID, VALID]),
            ];
            let bytes = words.map(u32::to_le_bytes).concat();
            let from = 16 * own as usize;
            memory[from..from + 16].copy_from_slice(&bytes);
            rings[side].push(address(own));
        }
    }
    let [receiving, sending] = rings;
    (Rings { receiving, sending }, memory)
}

fn write(offset: u32, value: u32) -> Event {
    Event::Write { offset, value }
}

/// Receive-all, both engines started, most of the time, and the time-out.
fn set_up(rings: &Rings, value: u32, random: &mut Random) -> Vec<Event> {
    let mut events = vec![write(0x400, 1 << 31)];
    if !random.once_in(12) {
        events.extend([write(0x1C, rings.receiving[0] | POLLING), write(0x10, 5)]);
    }
    if !random.once_in(8) {
        events.extend([write(0x3C, rings.sending[0] | POLLING), write(0x30, 5)]);
    }
    if !random.once_in(12) {
        events.push(write(0x48, value));
    }
    events
}

fn time_out(random: &mut Random) -> u32 {
    match random.below(8) {
        0 => 0xFFFF,
        1 => random.pick(&[0, 0x1_0000]),
        2 => random.word(),
        _ => random.between(1, 7) as u32,
    }
}

/// One event more, often a few of a kind.
fn event(events: &mut Vec<Event>, rings: &Rings, random: &mut Random) {
    match random.below(10) {
        0..=2 => {
            for _ in 0..random.between(1, 4) {
                events.push(frame(random));
            }
        }
        3 | 4 => {
            for _ in 0..random.between(1, 3) {
                events.push(Event::Send);
            }
        }
        5 | 6 => events.push(Event::Grant {
            address: random.pick(&rings.receiving),
        }),
        7 => events.push(Event::Grant {
            address: random.pick(&rings.sending),
        }),
        8 => events.push(write(0x48, time_out(random))),
        _ => events.push(match random.below(4) {
            0 => write(0x30, random.pick(&[0, 5])),
            1 => write(0x10, random.pick(&[0, 5])),
            2 => write(0x400, random.pick(&[0, 1 << 31])),
            _ => write(random.pick(&[4, 8, 0x44, 0x4C]), random.word()),
        }),
    }
}

/// A closed frame that fits into a buffer, most often.
fn bytes(random: &mut Random) -> Vec<u8> {
    let length = match random.below(24) {
        0 => 90,
        _ => random.between(60, 76),
    };
    let mut message = random.bytes(length);
    if random.once_in(2) {
        message[..6].fill(0xFF);
    }
    let mut bytes = check::closed(&message);
    if random.once_in(16) {
        bytes[10] ^= 1;
    }
    bytes
}

fn frame(random: &mut Random) -> Event {
    Event::Frame {
        bytes: bytes(random),
    }
}

/// A store of a few frames, and pairs that take some of them more than once.
fn burst(random: &mut Random) -> (Vec<u8>, Vec<u32>, Vec<u32>) {
    let mut store = Vec::new();
    let mut places = Vec::new();
    for _ in 0..random.between(1, 3) {
        let bytes = bytes(random);
        places.push((store.len() as u32, bytes.len() as u32));
        store.extend(bytes);
    }
    let count = match random.below(16) {
        0 => 0,
        1 => random.pick(&[64, 65, 66]),
        _ => random.between(1, 12),
    };
    let pairs = (0..count).map(|_| match random.below(20) {
        0 => (store.len() as u32, 1),
        1 => (u32::MAX, 64),
        _ => random.pick(&places),
    });
    let (starts, lengths) = pairs.unzip();
    (store, starts, lengths)
}
