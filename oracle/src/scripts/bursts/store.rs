//! Stores for bursts: frames good and bad, one behind the other or one inside the other.

use crate::check;
use crate::device::Pair;
use crate::scripts::writer::Writer;

/// A store's bytes, and where its frames lie.
pub struct Store {
    pub bytes: Vec<u8>,
    pub frames: Vec<Pair>,
}

/// A store of up to `count` frames in at most `most` bytes.
pub fn store(writer: &mut Writer, count: usize, most: usize) -> Store {
    let mut store = Store {
        bytes: Vec::new(),
        frames: Vec::new(),
    };
    // In half of the stores every frame passes, so that bursts come to the end of grants or of a
    // chain.
    let good = writer.random.once_in(2);
    for _ in 0..count {
        let stray = stray(writer);
        let frame = frame(writer, good);
        if store.bytes.len() + stray.len() + frame.len() > most {
            break;
        }
        store.bytes.extend(stray);
        store.add(frame);
        if writer.random.once_in(12) {
            nest(writer, &mut store, most);
        }
    }
    // Most stores end with their last frame.
    let stray = stray(writer);
    store.bytes.extend(stray);
    store.bytes.truncate(most);
    store
}

impl Store {
    fn add(&mut self, frame: Vec<u8>) {
        self.frames.push(Pair {
            start: self.bytes.len() as u64,
            length: frame.len() as u64,
        });
        self.bytes.extend(frame);
    }
}

/// A few bytes of no frame, or none.
fn stray(writer: &mut Writer) -> Vec<u8> {
    let length = match writer.random.below(6) {
        0 => writer.random.between(1, 5),
        _ => 0,
    };
    writer.random.bytes(length)
}

/// Mostly short frames, so that a line has room for many.
fn frame(writer: &mut Writer, good: bool) -> Vec<u8> {
    let length = match writer.random.below(6) {
        0 => writer.random.between(64, 120),
        _ => writer.random.between(64, 72),
    };
    if good {
        return writer.passing_frame(length);
    }
    match writer.random.below(8) {
        0 => writer.frame_bytes(),
        _ => writer.frame_of(length),
    }
}

/// Puts a frame behind the last one that holds that one whole: two pairs that share bytes, each a
/// frame of its own.
fn nest(writer: &mut Writer, store: &mut Store, most: usize) {
    let inner = store.frames[store.frames.len() - 1];
    let inner = store.bytes[inner.start as usize..].to_vec();
    let mut message = writer.passing_frame(64);
    message.truncate(14);
    message.extend(&inner);
    let outer = check::closed(&message);
    if store.bytes.len() + outer.len() > most {
        return;
    }
    let start = store.bytes.len() as u64 + 14;
    store.add(outer);
    store.frames.push(Pair {
        start,
        length: inner.len() as u64,
    });
}
