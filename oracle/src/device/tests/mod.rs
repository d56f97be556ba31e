//! Examples worked out by hand from the rules.

mod bursts;
mod by_hash;
mod counters;
mod grants;
mod marked;
mod polling;
mod readings;
mod reasons;
mod receiving;
mod register_access;
mod rings;
mod sending;
mod step_runs;
mod ticks;

use super::Bench;
use crate::check;

/// Control bits of a descriptor.
const NEXT_ENABLE: u32 = 1 << 14;
/// Low bits of a word that leads to a place: polling, and the reserved one beside it.
const POLLING: u32 = 1;
const RESERVED: u32 = 2;
/// The granted level, all other status bits 0.
const GRANTED: u32 = 0x0001_0000;

/// Register offsets.
const ENABLE: u32 = 0x04;
const STATUS: u32 = 0x08;
const RX_START: u32 = 0x10;
const RX_NEXT: u32 = 0x1C;
const TX_START: u32 = 0x30;
const TX_NEXT: u32 = 0x3C;
const TIME_OUT: u32 = 0x48;
const CONTROL: u32 = 0x400;
const HASH_HIGH: u32 = 0x40C;
const HASH_LOW: u32 = 0x410;

/// The status register after reset.
const RESET_STATUS: u32 = 0x0005_0001;

const OWN: [u8; 6] = [2, 0, 0, 0, 0, 1];

/// A bench with its memory.
#[derive(Clone)]
struct Trial {
    bench: Bench,
    memory: Vec<u8>,
}

impl Trial {
    /// A window at 0 for station 02-00-00-00-00-01, every byte 0xA5 so that strays show.
    fn new(length: usize) -> Trial {
        let (mut bench, number) = Bench::new(0, length as u64);
        assert_eq!(number, 0);
        bench.write(0x408, 0x0000_0002);
        bench.write(0x404, 0x0000_0100);
        Trial {
            bench,
            memory: vec![0xA5; length],
        }
    }

    fn put(&mut self, address: usize, word: u32) {
        self.memory[address..address + 4].copy_from_slice(&word.to_le_bytes());
    }

    fn get(&self, address: usize) -> u32 {
        let bytes = &self.memory[address..address + 4];
        u32::from_le_bytes(bytes.try_into().unwrap())
    }

    fn descriptor(&mut self, address: usize, control: u32, start: u32, next: u32, status: u32) {
        for (place, word) in [control, start, next, status].into_iter().enumerate() {
            self.put(address + 4 * place, word);
        }
    }

    fn start_receiving(&mut self, first: u32) {
        self.bench.write(RX_NEXT, first);
        self.bench.write(RX_START, 5);
    }

    fn start_sending(&mut self, first: u32) {
        self.bench.write(TX_NEXT, first);
        self.bench.write(TX_START, 5);
    }

    fn receive(&mut self, frame: &[u8]) -> u32 {
        self.bench.receive(&mut self.memory, frame)
    }

    fn send(&mut self) -> (u32, Vec<u8>) {
        let mut output = vec![0xEE; 1_518];
        let (number, sent) = self.bench.send(&mut self.memory, &mut output);
        assert!(output[sent..].iter().all(|byte| *byte == 0xEE));
        output.truncate(sent);
        (number, output)
    }

    fn status(&self) -> u32 {
        self.bench.read(STATUS).1
    }
}

/// A closed frame of `length` bytes.
fn frame(destination: [u8; 6], length: usize) -> Vec<u8> {
    let mut message: Vec<u8> = (0..length - 4).map(|place| place as u8).collect();
    message[..6].copy_from_slice(&destination);
    check::closed(&message)
}
