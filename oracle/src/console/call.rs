//! The calls that a console line can name.

use super::burst::Burst;
use super::interrupts::Interrupts;
use super::parse::{decimal, hexadecimal};
use super::MEMORY;
use crate::hex;

/// The largest output that can be lent.
const ROOM_MOST: u32 = 65_536;
/// The most bytes shown by one peek.
const PEEK_MOST: u32 = 65_536;
/// No limit but that of eight digits.
const ANY: u32 = u32::MAX;

pub enum Call {
    New { base: u32, length: u32 },
    Lend { length: u32 },
    Read { offset: u32 },
    Write { offset: u32, value: u32 },
    Line,
    Grant { address: u32 },
    Frame { bytes: Vec<u8> },
    Burst(Burst),
    Send { room: u32 },
    Run { allowance: u32, room: u32 },
    Show { address: u32 },
    Ring { count: u32, first: u32 },
    Poke { address: u32, bytes: Vec<u8> },
    Peek { address: u32, length: u32 },
    Check,
    State,
    Tick,
    Counters,
    Interrupts(Interrupts),
}

impl Call {
    /// The call a line names, if its words are exactly those of one.
    pub fn parse(line: &[u8]) -> Option<Call> {
        let words: Vec<&[u8]> = line.split(|byte| *byte == b' ').collect();
        Some(match words[..] {
            [b"new", base, length] => Call::New {
                base: hexadecimal(base)?,
                length: decimal(length, ANY)?,
            },
            [b"lend", length] => Call::Lend {
                length: decimal(length, MEMORY as u32)?,
            },
            [b"read", offset] => Call::Read {
                offset: hexadecimal(offset)?,
            },
            [b"write", offset, value] => Call::Write {
                offset: hexadecimal(offset)?,
                value: hexadecimal(value)?,
            },
            [b"line"] => Call::Line,
            [b"grant", address] => Call::Grant {
                address: hexadecimal(address)?,
            },
            [b"frame", bytes] => Call::Frame {
                bytes: hex::parse(bytes)?,
            },
            [b"burst", ref words @ ..] => Call::Burst(Burst::parse(words)?),
            [b"send", room] => Call::Send {
                room: decimal(room, ROOM_MOST)?,
            },
            [b"run", allowance, room] => Call::Run {
                allowance: decimal(allowance, ANY)?,
                room: decimal(room, ROOM_MOST)?,
            },
            [b"show", address] => Call::Show {
                address: hexadecimal(address)?,
            },
            [b"ring", count, first] => Call::Ring {
                count: decimal(count, ANY)?,
                first: hexadecimal(first)?,
            },
            [b"poke", address, bytes] => Call::Poke {
                address: hexadecimal(address)?,
                bytes: hex::parse(bytes)?,
            },
            [b"peek", address, length] => Call::Peek {
                address: hexadecimal(address)?,
                length: decimal(length, PEEK_MOST)?,
            },
            [b"check"] => Call::Check,
            [b"state"] => Call::State,
            [b"tick"] => Call::Tick,
            [b"counters"] => Call::Counters,
            ref words => Call::Interrupts(Interrupts::parse(words)?),
        })
    }
}
