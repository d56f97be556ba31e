//! Good traces: random days, and what becomes of their length.

use super::{events, Tape};
use crate::random::Random;
use crate::recording::{self, Recording};
use crate::scripts::days;
use crate::trace::{block, Event, Header};

/// How long a trace is made.
#[derive(Clone, Copy, Debug, PartialEq, Eq)]
pub enum Shape {
    /// As the day was, with or without other events between.
    Day,
    /// No events.
    Empty,
    /// A few events in one block.
    OneBlock,
    /// The last block filled to exactly 504.
    Full,
    /// One byte in the last block.
    OneByte,
    /// One byte short of a full last block.
    OneLess,
    /// Frames of up to 3,000 bytes.
    LongFrames,
    /// A few dozen blocks.
    ManyBlocks,
    /// Sends alone.
    Sends,
}

pub const SHAPES: [Shape; 9] = [
    Shape::Day,
    Shape::Empty,
    Shape::OneBlock,
    Shape::Full,
    Shape::OneByte,
    Shape::OneLess,
    Shape::LongFrames,
    Shape::ManyBlocks,
    Shape::Sends,
];

/// A good trace of a random day.
pub fn good(random: &mut Random) -> Tape {
    let shape = match random.below(3) {
        0 => random.pick(&SHAPES),
        1 => random.pick(&[Shape::Full, Shape::Day, Shape::LongFrames]),
        _ => Shape::Day,
    };
    let recording = shape.make(day(random), random);
    let Recording {
        header,
        image,
        events,
    } = recording;
    Tape::new(&format!("{shape:?}"), header, image, &events)
}

/// Frames whose length takes three bytes, and one whose length takes four; among other events.
pub fn long_frames(random: &mut Random) -> Vec<Tape> {
    [65_535, 65_536, 70_000, 0x100_0000, 0x100_0001]
        .into_iter()
        .map(|length| {
            let mut day = day(random);
            let bytes = random.bytes(length);
            let place = random.below(day.events.len() + 1);
            day.events.insert(place, Event::Frame { bytes });
            Tape::new("long frame", day.header, day.image, &day.events)
        })
        .collect()
}

/// A random day, now and then with other events between.
fn day(random: &mut Random) -> Recording {
    let script = days::random_day(random).join(&b'\n');
    let mut day = recording::of(&script).expect("a day can be recorded");
    if random.once_in(3) {
        for _ in 0..random.between(1, 8) {
            let place = random.below(day.events.len() + 1);
            day.events.insert(place, events::any(random));
        }
    }
    day
}

impl Shape {
    fn make(self, mut day: Recording, random: &mut Random) -> Recording {
        let list = &mut day.events;
        match self {
            Shape::Day => {}
            Shape::Empty => list.clear(),
            Shape::OneBlock => shorten(list, block::DATA_MOST),
            Shape::Full => fill(list, 0),
            Shape::OneByte => fill(list, 1),
            Shape::OneLess => fill(list, block::DATA_MOST - 1),
            Shape::LongFrames => {
                for _ in 0..random.between(1, 6) {
                    let place = random.below(list.len() + 1);
                    let length = random.between(1_000, 3_000);
                    let bytes = random.bytes(length);
                    list.insert(place, Event::Frame { bytes });
                }
            }
            Shape::ManyBlocks => {
                let once = list.clone();
                while size(list) < 20 * block::DATA_MOST {
                    list.extend(once.iter().cloned());
                    list.push(events::frame(random));
                }
            }
            Shape::Sends => *list = vec![Event::Send; random.between(1, 2_000)],
        }
        day
    }
}

/// The bytes of the event data, the header counted.
fn size(list: &[Event]) -> usize {
    Header::SIZE + Event::list(list).len()
}

/// Drops events from the end until all fit.
fn shorten(list: &mut Vec<Event>, most: usize) {
    while size(list) > most {
        list.pop();
    }
}

/// Adds sends, of one byte each, until the last block has `rest` bytes, 504 for 0.
fn fill(list: &mut Vec<Event>, rest: usize) {
    let missing = (block::DATA_MOST + rest - size(list) % block::DATA_MOST) % block::DATA_MOST;
    list.extend(vec![Event::Send; missing]);
}
