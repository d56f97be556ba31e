//! Frames out: the single send and the step run.

use super::descriptor::Descriptor;
use super::engine::SEND;
use super::Bench;
use crate::check;
use crate::numbers::{
    ALLOWANCE_OVER, CHAIN_FAULT, DONE, LENT_LENGTH, NOT_RUNNING, OUTPUT_SHORT, SEND_LENGTH,
};

/// The least output that a send may be lent, whatever it sends.
const OUTPUT_LEAST: usize = 1_518;
/// Shorter frames are padded to this, check sequence not counted.
const PADDED: usize = 60;
/// The most steps that may be allowed.
const ALLOWANCE_MOST: u64 = 4_096;

/// What a step run gives back.
#[derive(Clone, Copy, Debug, PartialEq, Eq)]
pub struct StepRun {
    pub answer: u32,
    pub steps: u64,
    pub bytes: usize,
}

impl Bench {
    /// One send into the front of `output`: the number and the bytes written.
    pub fn send(&mut self, memory: &mut [u8], output: &mut [u8]) -> (u32, usize) {
        if !self.window.is_lent(memory) {
            return (LENT_LENGTH, 0);
        }
        if output.len() < OUTPUT_LEAST {
            return (OUTPUT_SHORT, 0);
        }
        let (number, sent) = match self.next_frame(memory) {
            Err(number) => (number, 0),
            Ok(frame) => {
                output[..frame.len()].copy_from_slice(&frame);
                // "A send answering 0 clears it too": the count of ticks.
                self.ticks = 0;
                (DONE, frame.len())
            }
        };
        self.counters.sent(number);
        (number, sent)
    }

    /// The send engine's next frame, or the number that there is none by.
    fn next_frame(&mut self, memory: &mut [u8]) -> Result<Vec<u8>, u32> {
        if !self.sender.running {
            return Err(NOT_RUNNING);
        }
        let place = self.sender.place;
        let Some(descriptor) = Descriptor::read(&self.window, memory, place) else {
            self.sender.running = false;
            return Err(CHAIN_FAULT);
        };
        if !descriptor.granted() {
            return Err(self.sender.not_granted());
        }
        let Some(buffer) = descriptor.buffer(&self.window, place, descriptor.count()) else {
            self.sender.running = false;
            return Err(CHAIN_FAULT);
        };
        if !(14..=1_514).contains(&buffer.len()) {
            self.sender.running = false;
            return Err(SEND_LENGTH);
        }
        let mut message = memory[buffer].to_vec();
        message.resize(message.len().max(PADDED), 0);
        Descriptor::write_status(&self.window, memory, place, 0);
        let raised = self.sender.finish(&SEND, &descriptor);
        self.registers.raise(raised);
        Ok(check::closed(&message))
    }

    /// Single sends one behind the other, at most `allowance` of them.
    pub fn run(&mut self, memory: &mut [u8], output: &mut [u8], allowance: u64) -> StepRun {
        let mut run = StepRun {
            answer: DONE,
            steps: 0,
            bytes: 0,
        };
        if allowance > ALLOWANCE_MOST {
            run.answer = ALLOWANCE_OVER;
            return run;
        }
        while run.steps < allowance && run.answer == DONE {
            let (answer, sent) = self.send(memory, &mut output[run.bytes..]);
            run.answer = answer;
            run.steps += 1;
            run.bytes += sent;
        }
        run
    }
}
