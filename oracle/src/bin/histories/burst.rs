//! A burst as a history makes it: frames of the sequence in one store, pairs outside among them.

use crate::start::Start;
use oracle::device::Pair;
use oracle::random::Random;

/// "At most 64" pairs.
pub const PAIRS_MOST: usize = 64;
/// What an answer list holds before the call.
pub const BEFORE: u32 = 99;

pub struct Burst {
    store: Vec<u8>,
    pairs: Vec<Pair>,
    /// The frame that each pair was made for, nothing for a pair outside.
    frames: Vec<Option<Vec<u8>>>,
    /// The length of the answer list.
    room: usize,
}

impl Burst {
    /// These frames in order, with `outside` pairs past the store's end among them.
    pub fn new(frames: &[Vec<u8>], outside: usize, random: &mut Random) -> Burst {
        let (store, places) = laid_out(frames, random);
        let mut burst = Burst {
            pairs: places,
            frames: frames.iter().cloned().map(Some).collect(),
            room: frames.len() + outside,
            store,
        };
        for _ in 0..outside {
            let place = random.below(burst.pairs.len() + 1);
            let pair = past_the_end(burst.store.len() as u64, random);
            burst.pairs.insert(place, pair);
            burst.frames.insert(place, None);
        }
        burst
    }

    /// A burst of these frames, one at least, that is refused for its many pairs.
    pub fn over(frames: &[Vec<u8>], random: &mut Random) -> Burst {
        let mut burst = Burst::new(frames, 0, random);
        let count = PAIRS_MOST + random.between(1, 4);
        burst.pairs = burst.pairs.into_iter().cycle().take(count).collect();
        burst.frames = burst.frames.into_iter().cycle().take(count).collect();
        burst.room = count;
        burst
    }

    /// A burst of these frames that is refused for its answer list.
    pub fn with_another_list(frames: &[Vec<u8>], random: &mut Random) -> Burst {
        let mut burst = Burst::new(frames, 0, random);
        let count = burst.pairs.len();
        burst.room = match random.below(3) {
            0 => count + 1,
            1 => count.saturating_sub(1),
            _ => random.below(70),
        };
        if burst.room == count {
            burst.room += 1;
        }
        burst
    }

    /// Makes the call: its number and the answer list.
    pub fn make(&self, now: &mut Start) -> (u32, Vec<u32>) {
        let mut answers = vec![BEFORE; self.room];
        let memory = &mut now.memory;
        let number = now
            .bench
            .burst(memory, &self.store, &self.pairs, &mut answers);
        (number, answers)
    }

    pub fn refused(&self) -> bool {
        self.pairs.len() > PAIRS_MOST || self.room != self.pairs.len()
    }

    /// What the burst's pairs stand for, in order: a frame, or nothing for a pair outside.
    pub fn pairs(&self) -> impl Iterator<Item = Option<&[u8]>> {
        self.frames.iter().map(|frame| frame.as_deref())
    }
}

/// A store with all frames in any order, and the pair of each. A frame that another one starts or
/// ends with may lie in that one's bytes.
fn laid_out(frames: &[Vec<u8>], random: &mut Random) -> (Vec<u8>, Vec<Pair>) {
    let mut order: Vec<usize> = (0..frames.len()).collect();
    for place in (1..order.len()).rev() {
        order.swap(place, random.below(place + 1));
    }
    let mut store = Vec::new();
    let mut starts: Vec<Option<usize>> = vec![None; frames.len()];
    for chosen in order {
        let frame = &frames[chosen];
        let shared = starts.iter().zip(frames).find_map(|(start, other)| {
            if other.starts_with(frame) {
                *start
            } else if other.ends_with(frame) {
                start.map(|start| start + other.len() - frame.len())
            } else {
                None
            }
        });
        starts[chosen] = Some(shared.unwrap_or_else(|| {
            let stray = random.below(3);
            store.extend(random.bytes(stray));
            store.extend(frame);
            store.len() - frame.len()
        }));
    }
    let pairs = starts.iter().zip(frames).map(|(start, frame)| Pair {
        start: start.expect("every frame was laid out") as u64,
        length: frame.len() as u64,
    });
    (store, pairs.collect())
}

/// A pair that passes the end of a store.
fn past_the_end(end: u64, random: &mut Random) -> Pair {
    let inside = random.below(end as usize + 1) as u64;
    let (start, length) = match random.below(5) {
        0 => (inside, end - inside + 1),
        1 => (end + 1, 0),
        2 => (u64::MAX, random.pick(&[0, 1, 64, u64::MAX])),
        3 => (random.pick(&[1, 64]), u64::MAX),
        _ => (inside, end + random.between(1, 1_518) as u64),
    };
    Pair { start, length }
}
