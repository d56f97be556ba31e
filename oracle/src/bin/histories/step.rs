//! A step of a history other than a burst, as a value, so that a history can be made again.

use crate::start::Start;

pub enum Step {
    Grant(u32),
    Receive(Vec<u8>),
    Send { room: usize },
    Run { room: usize, allowance: u64 },
    Write { offset: u32, value: u32 },
    Read { offset: u32 },
    Show(u32),
    Ring { count: u32, first: u32 },
    Tick,
    Firmware { place: usize, bytes: Vec<u8> },
}

impl Step {
    /// Makes the step; gives all that its call answers.
    pub fn make(&self, now: &mut Start) -> Vec<u32> {
        let Start { bench, memory, .. } = now;
        match self {
            Step::Grant(address) => vec![bench.grant(memory, *address)],
            Step::Receive(frame) => vec![bench.receive(memory, frame)],
            Step::Send { room } => {
                let (number, sent) = bench.send(memory, &mut vec![0; *room]);
                vec![number, sent as u32]
            }
            Step::Run { room, allowance } => {
                let run = bench.run(memory, &mut vec![0; *room], *allowance);
                vec![run.answer, run.steps as u32, run.bytes as u32]
            }
            Step::Write { offset, value } => vec![bench.write(*offset, *value)],
            Step::Read { offset } => {
                let (number, value) = bench.read(*offset);
                vec![number, value]
            }
            Step::Show(address) => {
                let (number, part) = bench.show(memory, *address);
                let part = part.iter().map(|byte| u32::from(*byte));
                [number].into_iter().chain(part).collect()
            }
            Step::Ring { count, first } => vec![bench.ring(memory, *count, *first).into()],
            Step::Tick => vec![bench.tick(memory)],
            Step::Firmware { place, bytes } => {
                memory[*place..place + bytes.len()].copy_from_slice(bytes);
                Vec::new()
            }
        }
    }
}
