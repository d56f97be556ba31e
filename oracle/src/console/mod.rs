//! The bench console, line for line: one call a line in, one line out.

mod burst;
mod call;
mod interrupts;
mod parse;
#[cfg(test)]
mod tests;

use crate::device::{Bench, Counters};
use crate::vic::{self, Levels};
use crate::{check, hex};
pub use call::Call;
pub use interrupts::Interrupts;
pub use parse::{decimal, hexadecimal};
use std::ops::Range;

/// The console's memory: the greatest window and eight bytes, to lend too much.
pub const MEMORY: usize = 65_544;

/// The longest line that is a call.
const LINE_MOST: usize = 4_096;

pub struct Console {
    pub bench: Bench,
    pub pair: vic::Pair,
    /// The inputs of both controllers as they were last set.
    inputs: Levels,
    pub memory: Vec<u8>,
    lent: usize,
    lines: usize,
}

impl Default for Console {
    fn default() -> Console {
        Console::new()
    }
}

impl Console {
    pub fn new() -> Console {
        Console {
            bench: Bench::new(0, 0).0,
            pair: vic::Pair::default(),
            inputs: Levels::default(),
            memory: vec![0; MEMORY],
            lent: 0,
            lines: 0,
        }
    }

    /// The memory as it is lent to the bench.
    pub fn lent(&self) -> &[u8] {
        &self.memory[..self.lent]
    }

    /// The inputs of both controllers as they stand: the bench's line is one of them.
    pub fn levels(&self) -> Levels {
        vic::with_ethernet(self.inputs, self.bench.line())
    }

    /// Takes one line without its line feed; gives the line written for it, if any.
    pub fn take(&mut self, line: &[u8]) -> Option<String> {
        self.lines += 1;
        if line.is_empty() || line.starts_with(b"#") {
            return None;
        }
        Some(match call(line) {
            Some(call) => self.make(call),
            None => format!("error {}", self.lines),
        })
    }

    fn make(&mut self, call: Call) -> String {
        let lent = &mut self.memory[..self.lent];
        match call {
            Call::New { base, length } => {
                let (bench, number) = Bench::new(base, length.into());
                self.lent = bench.window.length as usize;
                self.bench = bench;
                self.pair = vic::Pair::default();
                self.inputs = Levels::default();
                self.memory.fill(0);
                format!("new {number}")
            }
            Call::Lend { length } => {
                self.lent = length as usize;
                "lend".to_string()
            }
            Call::Read { offset } => {
                let (number, value) = self.bench.read(offset);
                format!("read {number} {value:08x}")
            }
            Call::Write { offset, value } => {
                format!("write {}", self.bench.write(offset, value))
            }
            Call::Line => format!("line {}", u32::from(self.bench.line())),
            Call::Grant { address } => format!("grant {}", self.bench.grant(lent, address)),
            Call::Frame { bytes } => format!("frame {}", self.bench.receive(lent, &bytes)),
            Call::Burst(burst) => burst.make(&mut self.bench, lent),
            Call::Send { room } => {
                let mut output = vec![0; room as usize];
                let (number, sent) = self.bench.send(lent, &mut output);
                format!("send {number} {}", hex::write(&output[..sent]))
            }
            Call::Run { allowance, room } => {
                let mut output = vec![0; room as usize];
                let run = self.bench.run(lent, &mut output, allowance.into());
                let sent = hex::write(&output[..run.bytes]);
                format!("run {} {} {} {sent}", run.answer, run.steps, run.bytes)
            }
            Call::Show { address } => {
                let (number, part) = self.bench.show(lent, address);
                format!("show {number} {}", hex::write(part))
            }
            Call::Ring { count, first } => match self.bench.ring(lent, count, first) {
                true => "ring yes".to_string(),
                false => "ring no".to_string(),
            },
            Call::Poke { address, bytes } => match self.places(address, bytes.len()) {
                Some(places) => {
                    self.memory[places].copy_from_slice(&bytes);
                    "poke ok".to_string()
                }
                None => "poke outside".to_string(),
            },
            Call::Peek { address, length } => match self.places(address, length as usize) {
                Some(places) => format!("peek {}", hex::write(&self.memory[places])),
                None => "peek outside".to_string(),
            },
            Call::Check => {
                let window = &self.memory[..self.bench.window.length as usize];
                format!("check {:08x}", check::number(window))
            }
            Call::State => {
                let engines = [self.bench.receiver, self.bench.sender];
                let [receive, send] = engines
                    .map(|engine| format!("{} {:08x}", u32::from(engine.running), engine.place));
                format!("state {receive} {send}")
            }
            Call::Tick => format!("tick {}", self.bench.tick(lent)),
            Call::Counters => {
                let Counters {
                    delivered,
                    lost,
                    sent,
                } = self.bench.counters;
                format!("counters {delivered} {lost} {sent} {}", self.bench.ticks)
            }
            Call::Interrupts(call) => {
                let levels = self.levels();
                call.make(&mut self.pair, &mut self.inputs, levels)
            }
        }
    }

    /// The firmware's own reach is the window, whatever is lent to the bench.
    fn places(&self, address: u32, length: usize) -> Option<Range<usize>> {
        self.bench.window.places(address, length as u64)
    }
}

/// The call that a line is, if it is one: of the right words and not too long.
pub fn call(line: &[u8]) -> Option<Call> {
    match line.len() {
        0..=LINE_MOST => Call::parse(line),
        _ => None,
    }
}

/// The lines of an input. A last line without a line feed counts.
pub fn lines(input: &[u8]) -> Vec<&[u8]> {
    let mut lines: Vec<&[u8]> = input.split(|byte| *byte == b'\n').collect();
    if lines.last().is_some_and(|last| last.is_empty()) {
        lines.pop();
    }
    lines
}

/// All that a console writes for an input.
pub fn output(input: &[u8]) -> Vec<String> {
    let mut console = Console::new();
    lines(input)
        .into_iter()
        .filter_map(|line| console.take(line))
        .collect()
}
