//! One comparison of each kind: the numbers found, and every byte of every lent buffer.

use crate::{expected, found, library};
use oracle::delivered::Delivered;
use oracle::device::{Bench, Window};
use oracle::difference::{self, BEFORE};
use oracle::hex::shown;
use oracle::numbers;
use oracle::tally::Tally;
use oracle::tapes::{Lent, List, Tape};
use oracle::trace::{self, block, Header, Reading, BLOCKS_MOST};
use oracle::ungranted::Ungranted;
use std::cmp::Ordering;

pub struct Comparison {
    pub tally: Tally,
    /// How long the list of the numbers found by a replay is.
    pub found: usize,
}

impl Default for Comparison {
    fn default() -> Comparison {
        Comparison {
            tally: Tally::default(),
            found: found::REPLAY.len(),
        }
    }
}

impl Comparison {
    /// Reads a trace into a room.
    pub fn read(&mut self, tape: &Tape, room: &[u8]) -> Result<(), String> {
        let (mut wanted_room, mut got_room) = (room.to_vec(), room.to_vec());
        let wanted = trace::read(&tape.bytes, &mut wanted_room);
        let mut got = [BEFORE; found::READING.len()];
        library::read(&tape.bytes, &mut got_room, &mut got);
        self.tally.met(expected::number_name(wanted.number));
        self.tally.met(expected::call_name("read", wanted.number));
        let blocks = tape.bytes.len().div_ceil(block::SIZE);
        if let Some(name) = expected::place_name(wanted.number, wanted.block, blocks) {
            self.tally.met(name);
            if room.is_empty() {
                self.tally.met(expected::NO_ROOM);
            }
        }
        difference::found(&found::READING, &found::reading(&wanted), &got)
            .and_then(|()| difference::buffer("room", room, &wanted_room, &got_room))
            .and_then(|()| self.written_again(tape, &wanted, &got_room))
            .map_err(|text| {
                format!(
                    "reading {} ({} bytes), lent a room of {}\n{text}\nthe trace: {}",
                    tape.kind,
                    tape.bytes.len(),
                    room.len(),
                    shown(&tape.bytes)
                )
            })
    }

    /// "A trace that is read is, byte for byte, what is written of its window and events."
    fn written_again(&mut self, tape: &Tape, read: &Reading, room: &[u8]) -> Result<(), String> {
        if read.number != numbers::DONE {
            return Ok(());
        }
        if room.len() as u64 > read.bytes {
            self.tally.met(expected::LONGER_ROOM);
        }
        self.tally.met(expected::WRITTEN_AGAIN);
        let events = &room[..read.bytes as usize];
        let before = vec![0xB6; tape.bytes.len()];
        let mut trace = before.clone();
        let mut got = [BEFORE; found::WRITING.len()];
        library::write(read.base, read.window, events, &mut trace, &mut got);
        let blocks = (tape.bytes.len() / block::SIZE) as u64;
        difference::found(&found::WRITING, &[numbers::DONE.into(), blocks], &got)
            .and_then(|()| difference::buffer("the trace", &before, &tape.bytes, &trace))
            .map_err(|text| format!("written again of what was read: {text}"))
    }

    /// Replays a trace.
    pub fn replay(&mut self, tape: &Tape, lent: &Lent) -> Result<(), String> {
        let (mut left, mut lefts) = (lent.clone(), lent.clone());
        let wanted = trace::replay(
            &tape.bytes,
            &mut left.room,
            &mut left.memory,
            &mut left.output,
            &mut left.answers,
        );
        let mut got = vec![BEFORE; self.found];
        library::replay(
            &tape.bytes,
            &mut lefts.room,
            &mut lefts.memory,
            &mut lefts.output,
            &mut lefts.answers,
            &mut got,
        );
        self.tally.met(expected::number_name(wanted.number));
        self.tally.met(expected::call_name("replay", wanted.number));
        match wanted.number {
            numbers::DONE => {
                self.answers(&left.answers[..wanted.events as usize]);
                let list = &left.room[..wanted.bytes as usize];
                self.ungranted(list, wanted.bench.window, lent);
                self.delivered(list, wanted.bench.window, lent);
                self.counted(&wanted.bench);
                if lent.answers.len() as u64 > wanted.events {
                    self.tally.met(expected::LONGER_LIST);
                }
            }
            numbers::READING_ROOM if few_answers(tape, lent) => {
                self.tally.met(expected::ROOM_BEFORE_ANSWERS);
            }
            numbers::BLOCK_LENGTH..=numbers::BLOCK_EVENT if lent.answers.is_empty() => {
                self.tally.met(expected::NO_ANSWERS);
            }
            _ => {}
        }
        let numbers = difference::list(&found::replay(&wanted), self.found);
        difference::found(&found::REPLAY, &numbers, &got)
            .and_then(|()| {
                difference::buffer("answers", &lent.answers, &left.answers, &lefts.answers)
            })
            .and_then(|()| difference::buffer("memory", &lent.memory, &left.memory, &lefts.memory))
            .and_then(|()| difference::buffer("output", &lent.output, &left.output, &lefts.output))
            .and_then(|()| difference::buffer("room", &lent.room, &left.room, &lefts.room))
            .map_err(|text| {
                format!(
                    "replaying {} ({} bytes), lent a room of {}, memory of {}, an output of {}, \
                     an answer list of {}\n{text}\nthe memory: {}\nthe trace: {}",
                    tape.kind,
                    tape.bytes.len(),
                    lent.room.len(),
                    lent.memory.len(),
                    lent.output.len(),
                    lent.answers.len(),
                    shown(&lent.memory),
                    shown(&tape.bytes)
                )
            })
    }

    /// What a replay leaves that is counted, and how much of it a list of its numbers shows.
    fn counted(&mut self, bench: &Bench) {
        let counters = bench.counters;
        let (_, time_out) = bench.read(0x48);
        let all = [time_out, counters.delivered, counters.lost, counters.sent];
        if self.found >= found::REPLAY.len() {
            for (name, _) in expected::LEFT.iter().zip(all).filter(|(_, left)| *left > 0) {
                self.tally.met(*name);
            }
        }
        match self.found.cmp(&found::REPLAY.len()) {
            Ordering::Less => self.tally.met(expected::SHORTER),
            Ordering::Greater => self.tally.met(expected::LONGER),
            Ordering::Equal => {}
        }
    }

    fn answers(&mut self, answers: &[u32]) {
        for answer in answers {
            self.tally.met(expected::answer_name(*answer));
        }
    }

    /// Each 8 of a replay by its kind.
    fn ungranted(&mut self, list: &[u8], window: Window, lent: &Lent) {
        let Window { base, length } = window;
        let (memory, output) = (lent.memory.clone(), lent.output.clone());
        for kind in Ungranted::in_events(base as u32, length, list, memory, output) {
            self.tally.met(expected::ungranted_name(kind));
        }
    }

    /// Each frame that a replay delivers, by why it was taken, and those whose packet status word the
    /// memory has at the end.
    fn delivered(&mut self, list: &[u8], window: Window, lent: &Lent) {
        let Window { base, length } = window;
        let (memory, output) = (lent.memory.clone(), lent.output.clone());
        for delivered in Delivered::in_events(base as u32, length, list, memory, output) {
            self.tally.met(expected::delivered_name(delivered.taken));
            if delivered.left {
                self.tally.met(expected::left_name(delivered.taken));
            }
        }
    }

    /// "What is written reads back the same."
    fn read_back(&mut self, list: &List, trace: &[u8]) -> Result<(), String> {
        self.tally.met(expected::READ_BACK);
        let before = vec![0xB6; list.events.len()];
        let mut events = before.clone();
        let mut got = [BEFORE; found::READING.len()];
        library::read(trace, &mut events, &mut got);
        let count = trace::starts(&list.events).map_or(0, |starts| starts.len());
        let wanted = Reading {
            number: numbers::DONE,
            block: 0,
            base: list.base,
            window: list.window,
            bytes: list.events.len() as u64,
            events: count as u64,
        };
        difference::found(&found::READING, &found::reading(&wanted), &got)
            .and_then(|()| difference::buffer("the events", &before, &list.events, &events))
            .map_err(|text| format!("read back of what was written: {text}"))
    }

    /// Writes a list.
    pub fn write(&mut self, list: &List) -> Result<(), String> {
        let List {
            base,
            window,
            ref events,
            ref room,
            damage,
        } = *list;
        let (mut wanted_room, mut got_room) = (room.clone(), room.clone());
        let wanted = trace::write(base, window, events, &mut wanted_room);
        let mut got = [BEFORE; found::WRITING.len()];
        library::write(base, window, events, &mut got_room, &mut got);
        self.tally.met(expected::number_name(wanted.number));
        self.tally.met(expected::call_name("write", wanted.number));
        self.tally.met(expected::damage_name(damage));
        for number in later_refusals(list, wanted.number) {
            self.tally.met(expected::order_name(wanted.number, number));
        }
        difference::found(&found::WRITING, &found::writing(&wanted), &got)
            .and_then(|()| difference::buffer("room", room, &wanted_room, &got_room))
            .and_then(|()| match wanted.number {
                numbers::DONE => {
                    let trace = &got_room[..block::SIZE * wanted.blocks as usize];
                    self.read_back(list, trace)
                }
                _ => Ok(()),
            })
            .map_err(|text| {
                format!(
                    "writing base {base:x} hex, window {window}, {} bytes of events (damage: \
                     {damage}), lent a room of {}\n{text}\nthe events: {}",
                    events.len(),
                    room.len(),
                    shown(events)
                )
            })
    }
}

/// Whether the answer list of a replay is short too.
fn few_answers(tape: &Tape, lent: &Lent) -> bool {
    trace::content(&tape.bytes).is_ok_and(|content| (lent.answers.len() as u64) < content.count)
}

/// The refusals of a writing that stand behind the one that was given, and would have been too.
fn later_refusals(list: &List, given: u32) -> Vec<u32> {
    let blocks = (Header::SIZE + list.events.len()).div_ceil(block::DATA_MOST);
    let window = Header::allowed(list.base, list.window).is_none();
    let later = [
        (numbers::WRITING_WINDOW, window),
        (numbers::BLOCKS_OVER, blocks > BLOCKS_MOST),
        (
            numbers::WRITING_ROOM,
            block::SIZE * blocks > list.room.len(),
        ),
    ];
    later
        .into_iter()
        .filter(|(number, too)| *too && given != numbers::DONE && *number > given)
        .map(|(number, _)| number)
        .collect()
}
