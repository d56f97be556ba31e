//! What a line did that the counters and the count of ticks may know of.

use crate::compare::polling;
use crate::console::{Call, Console};
use crate::device::VALID;
use crate::side::Side;

/// What a tick finds at an engine; it changes none of this.
#[derive(Clone, Copy, Debug, PartialEq, Eq)]
pub struct Found {
    pub running: bool,
    pub polling: bool,
    /// All bytes of its descriptor are in the window.
    pub inside: bool,
    pub granted: bool,
    /// It could be sent: 14 to 1,514 bytes without a buffer fault, as far as addresses tell.
    pub sendable: bool,
}

impl Found {
    fn at(side: Side, console: &Console) -> Found {
        let engine = side.of(&console.bench);
        let window = console.bench.window;
        let bytes = window
            .places(engine.place, 16)
            .map(|places| &console.memory[places]);
        let word = |place: usize| match bytes {
            Some(bytes) => {
                let word = &bytes[place..place + 4];
                u32::from_le_bytes([word[0], word[1], word[2], word[3]])
            }
            None => 0,
        };
        let (count, start) = (word(0) & 0xFFF, word(4));
        Found {
            running: engine.running,
            polling: engine.polling,
            inside: bytes.is_some(),
            granted: word(12) & VALID != 0,
            sendable: (14..=1_514).contains(&count)
                && start % 4 == 0
                && window.places(start, count.into()).is_some(),
        }
    }

    /// Whether there is something to wait for.
    pub fn waits(self) -> bool {
        self.running && self.inside && self.granted
    }
}

#[derive(Clone, Debug, PartialEq, Eq)]
pub enum Happened {
    New {
        number: u32,
    },
    Write {
        offset: u32,
        value: u32,
        number: u32,
    },
    /// The answers to the frames of a line, alone or in a burst.
    Received {
        numbers: Vec<u32>,
        burst: bool,
    },
    /// The answers to the sends of a line, alone or in a step run.
    Sent {
        numbers: Vec<u32>,
        run: bool,
    },
    /// What a tick finds at both engines, nothing where it is lent another length.
    Tick {
        found: Option<[Found; 2]>,
    },
    Other,
}

impl Happened {
    /// The console has taken the call and answered so.
    pub fn of(call: &Call, answer: &str, console: &Console) -> Happened {
        let number = answer.split(' ').nth(1).and_then(|word| word.parse().ok());
        let number = number.unwrap_or_default();
        match call {
            Call::New { .. } => Happened::New { number },
            Call::Write { offset, value } => Happened::Write {
                offset: *offset,
                value: *value,
                number,
            },
            Call::Frame { .. } | Call::Burst(_) => Happened::Received {
                numbers: polling::answers(answer).1,
                burst: matches!(call, Call::Burst(_)),
            },
            Call::Send { .. } | Call::Run { .. } => Happened::Sent {
                numbers: polling::answers(answer).1,
                run: matches!(call, Call::Run { .. }),
            },
            Call::Tick => {
                let lent = console.lent().len() as u64 == console.bench.window.length;
                Happened::Tick {
                    found: lent.then(|| Side::BOTH.map(|side| Found::at(side, console))),
                }
            }
            _ => Happened::Other,
        }
    }
}
