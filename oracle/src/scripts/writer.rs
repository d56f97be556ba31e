//! Writes a script and follows it, so that later lines can be chosen by what the earlier ones did.

use crate::compare::Script;
use crate::console::Console;
use crate::device::VALID;
use crate::hex;
use crate::random::Random;

pub struct Writer {
    pub random: Random,
    pub console: Console,
    pub lines: Script,
    /// Addresses that calls should be tried on.
    pub marks: Vec<u32>,
}

impl Writer {
    pub fn new(seed: u64) -> Writer {
        Writer {
            random: Random::new(seed),
            console: Console::new(),
            lines: Script::new(),
            marks: Vec::new(),
        }
    }

    /// Adds a line; gives the oracle's answer, empty if there is none.
    pub fn say(&mut self, line: impl AsRef<[u8]>) -> String {
        let line = line.as_ref();
        self.lines.push(line.to_vec());
        self.console.take(line).unwrap_or_default()
    }

    pub fn poke(&mut self, address: u32, bytes: &[u8]) {
        // A line takes only so many bytes.
        for (place, piece) in bytes.chunks(1_024).enumerate() {
            let address = address.wrapping_add(1_024 * place as u32);
            self.say(format!("poke {address:x} {}", hex::write(piece)));
        }
    }

    pub fn poke_word(&mut self, address: u32, word: u32) {
        self.poke(address, &word.to_le_bytes());
    }

    /// The word the window holds at `address`, 0 outside.
    pub fn word(&self, address: u32) -> u32 {
        match self.console.bench.window.places(address, 4) {
            Some(places) => {
                let bytes = &self.console.memory[places];
                u32::from_le_bytes([bytes[0], bytes[1], bytes[2], bytes[3]])
            }
            None => 0,
        }
    }

    /// Looks at the packet status word of the descriptor at `address`.
    pub fn peek_status(&mut self, address: u32) {
        self.say(format!("peek {:x} 4", address.wrapping_add(12)));
    }

    /// Gives a descriptor to the DMA by the firmware's own write, with any bits beside VALID.
    pub fn grant_by_poke(&mut self, address: u32) {
        let status = self.random.word() | VALID;
        self.poke_word(address.wrapping_add(12), status);
    }

    pub fn base(&self) -> u32 {
        self.console.bench.window.base as u32
    }

    pub fn length(&self) -> u32 {
        self.console.bench.window.length as u32
    }

    /// The address behind the window; 0 if the window ends at 2^32.
    pub fn end(&self) -> u32 {
        self.base().wrapping_add(self.length())
    }

    /// A window of this length at one of the bases worth trying.
    pub fn new_bench(&mut self, length: u32) {
        let last = (1_u64 << 32) - u64::from(length);
        let base = match self.random.below(5) {
            0 => 0,
            1 => 4,
            2 => last as u32,
            3 => 0x0400_0000,
            _ => self.random.word() & !3 & 0xFFFE_FFFF,
        };
        self.say(format!("new {base:x} {length}"));
        self.marks.clear();
        self.fill();
    }

    /// Random bytes into the window, so that a byte too few or too many shows.
    fn fill(&mut self) {
        let pieces = self.random.between(1, 4);
        for _ in 0..pieces {
            let room = self.length().min(600) as usize;
            let start = self.random.below(self.length() as usize - room + 1) as u32;
            let bytes = self.random.bytes(room);
            self.poke(self.base().wrapping_add(start), &bytes);
        }
    }
}
