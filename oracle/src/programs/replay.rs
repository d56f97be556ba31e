//! `replay TRACE MEMORY`.

use super::ROOM;
use crate::device::Bench;
use crate::files::Contents;
use crate::numbers::READING_ROOM;
use crate::trace::{self, Answer, Content, Event};
use crate::{check, hex};
use std::fmt::Write;

pub const USAGE: &str = "usage: replay TRACE MEMORY\n";

/// "Of MEMORY at most 98,312 bytes are taken."
pub const MEMORY_MOST: usize = 98_312;

/// The output that each send is lent: enough for every one.
const OUTPUT: usize = 1_518;

/// What the program writes, in the order of its tests.
pub fn run(arguments: &[String], folder: &Contents) -> String {
    let [trace, memory] = arguments else {
        return USAGE.to_string();
    };
    // "`error NAME`, the first that cannot be opened or read."
    match (folder.read(trace), folder.read(memory)) {
        (None, _) => format!("error {trace}\n"),
        (_, None) => format!("error {memory}\n"),
        (Some(trace), Some(memory)) => output(trace, memory),
    }
}

/// The whole output for two files that can be read.
pub fn output(trace: &[u8], memory: &[u8]) -> String {
    match content(trace) {
        Err(refused) => refused,
        Ok(content) => played(&content, memory),
    }
}

/// What is in a trace that is played, or what the program says to it.
pub fn content(trace: &[u8]) -> Result<Content, String> {
    // "A trace that is longer than the program's room is refused by 23, whatever is in it."
    if trace.len() > ROOM {
        return Err(format!("refused {READING_ROOM}\n"));
    }
    trace::content(trace).map_err(|fault| format!("refused {} {}\n", fault.reason, fault.block))
}

/// Plays a trace with what is taken of the memory, and tells each event, its answer and the output.
/// Gives the bench and the memory behind it.
pub fn play(
    content: &Content,
    memory: &[u8],
    mut tell: impl FnMut(&Event, Answer, &[u8]),
) -> (Bench, Vec<u8>) {
    let window = content.header;
    let (mut bench, _) = Bench::new(window.base, window.length.into());
    let mut memory = memory[..memory.len().min(MEMORY_MOST)].to_vec();
    let mut output = vec![0; OUTPUT];
    for event in trace::events(&content.events) {
        let answer = event.call(&mut bench, &mut memory, &mut output);
        tell(&event, answer, &output);
    }
    (bench, memory)
}

fn played(content: &Content, memory: &[u8]) -> String {
    let window = content.header;
    let mut text = format!("window {:08x} {}\n", window.base, window.length);
    let (bench, mut memory) = play(content, memory, |event, answer, output| {
        writeln!(text, "{}", line(event, answer, output)).expect("a string takes all");
    });
    let [receive, send] = [bench.receiver, bench.sender]
        .map(|engine| format!("{} {:08x}", u32::from(engine.running), engine.place));
    // "`check` is of the window's length, with zeros for what MEMORY lacks."
    memory.resize(window.length as usize, 0);
    let check = check::number(&memory);
    text + &format!("state {receive} {send}\ncheck {check:08x}\n")
}

/// The line of an event "as the console writes it".
fn line(event: &Event, answer: Answer, output: &[u8]) -> String {
    let Answer { number, sent } = answer;
    match event {
        Event::Write { .. } => format!("write {number}"),
        Event::Grant { .. } => format!("grant {number}"),
        Event::Frame { .. } => format!("frame {number}"),
        Event::Send => format!("send {number} {}", hex::write(&output[..sent])),
    }
}
