//! Single calls with arguments worth trying.

use super::writer::Writer;
use crate::address::{ALL_MULTICAST_MODE, BROADCAST, HASH_MODE};
use crate::frames::{self, Destination, Ending};
use crate::{groups, hex};

/// The modelled offsets.
pub const OFFSETS: [u32; 12] = [
    0x04, 0x08, 0x10, 0x1C, 0x30, 0x3C, 0x48, 0x400, 0x404, 0x408, 0x40C, 0x410,
];

/// The most bytes of a frame that a line can name.
const FRAME_MOST: usize = 2_045;

impl Writer {
    /// Looks at all state: memory by its check, engines, and now and then each register.
    pub fn observe(&mut self) {
        self.say("check");
        self.say("state");
        if self.random.once_in(2) {
            self.say("counters");
        }
        if self.random.once_in(3) {
            for offset in OFFSETS {
                self.say(format!("read {offset:x}"));
            }
            self.say("line");
        }
        if self.random.once_in(4) {
            self.peek();
        }
    }

    pub fn peek(&mut self) {
        let address = self.address();
        let length = self.random.pick(&[0, 1, 4, 16, 16, 64, 200]);
        self.say(format!("peek {address:x} {length}"));
    }

    /// An address on or near one of the marks or the window's ends.
    pub fn address(&mut self) -> u32 {
        let (base, end) = (self.base(), self.end());
        let near = match self.random.below(8) {
            0 => base,
            1 => end,
            2 => self.random.word(),
            3 => base.wrapping_add(self.random.below(self.length().max(1) as usize) as u32),
            _ if self.marks.is_empty() => base,
            _ => self.marks[self.random.below(self.marks.len())],
        };
        let away = match self.random.below(8) {
            0 => self.random.pick(&[1, 2, 3]),
            1 => self.random.pick(&[4, 8, 12, 16]),
            2 => 0_u32.wrapping_sub(self.random.pick(&[4, 8, 12, 15, 16, 20])),
            _ => 0,
        };
        near.wrapping_add(away)
    }

    /// An address exactly on a mark, most of the time.
    pub fn mark(&mut self) -> u32 {
        if self.marks.is_empty() || self.random.once_in(8) {
            return self.address();
        }
        self.marks[self.random.below(self.marks.len())]
    }

    /// A frame for the bench as it stands, most often one that passes.
    pub fn frame_bytes(&mut self) -> Vec<u8> {
        let length = match self.random.below(8) {
            0 => self.random.pick(&[63, 1_519]),
            1 => self.random.pick(&[1_517, 1_518]),
            2 => frames::length(&mut self.random),
            3 => self.random.between(64, 1_518),
            _ => self.random.between(64, 100),
        };
        self.frame_of(length)
    }

    /// A frame of about this length for the bench as it stands, most often one that passes.
    pub fn frame_of(&mut self, length: usize) -> Vec<u8> {
        let destination = self.destination();
        let ending = match self.random.below(6) {
            0 => self.random.pick(&Ending::ALL),
            _ => Ending::Right,
        };
        let mut frame = self.frame_with(destination, ending, length);
        frame.truncate(FRAME_MOST);
        frame
    }

    /// A frame that passes, whatever the filter registers hold.
    pub fn passing_frame(&mut self, length: usize) -> Vec<u8> {
        let filter = self.console.bench.filter();
        let destination = match self.random.below(4) {
            0 => filter.station(),
            1 | 2 => groups::at_level(&filter, true, &mut self.random),
            _ => BROADCAST,
        };
        // What would be turned away, as groups in six of the eight modes, is to everybody instead.
        let destination = match filter.accepts(&destination) {
            true => destination,
            false => BROADCAST,
        };
        self.frame_with(destination, Ending::Right, length)
    }

    /// A destination for the bench as it stands. Where groups are taken, half of all are to them, and
    /// where the hash is asked, to those that it takes or turns away.
    fn destination(&mut self) -> [u8; 6] {
        let filter = self.console.bench.filter();
        if [HASH_MODE, ALL_MULTICAST_MODE].contains(&filter.mode()) && self.random.once_in(2) {
            let level = self.random.once_in(2);
            return groups::at_level(&filter, level, &mut self.random);
        }
        let kind = match self.random.below(3) {
            0 => Destination::Own,
            1 => Destination::Broadcast,
            _ => self.random.pick(&Destination::ALL),
        };
        kind.make(filter.station(), &mut self.random)
    }

    fn frame_with(&mut self, destination: [u8; 6], ending: Ending, length: usize) -> Vec<u8> {
        let message = frames::message(destination, length, &mut self.random);
        ending.make(&message, &mut self.random)
    }

    pub fn frame(&mut self) -> String {
        let frame = self.frame_bytes();
        self.say(format!("frame {}", hex::write(&frame)))
    }

    /// A start write with every combination of the two bits and sometimes others.
    pub fn start_value(&mut self) -> u32 {
        let bits = self.random.pick(&[0, 1, 4, 5, 5, 5]);
        match self.random.below(4) {
            0 => bits | self.random.word() & !5,
            _ => bits,
        }
    }

    /// A size of output worth trying.
    pub fn room(&mut self) -> usize {
        match self.random.below(8) {
            0 => self.random.pick(&[0, 1, 64, 1_514, 1_517]),
            1 => self.random.pick(&[1_518, 1_519, 65_535, 65_536]),
            2 => 1_518 * self.random.between(1, 5) + self.random.below(3) - 1,
            3 => 1_517 + 64 * self.random.between(1, 8) + self.random.below(3),
            4 => self.random.below(65_537),
            _ => 1_518 + self.random.below(4_000),
        }
    }

    pub fn allowance(&mut self) -> usize {
        match self.random.below(6) {
            0 => 0,
            1 => self.random.pick(&[4_095, 4_096]),
            2 => self.random.pick(&[4_097, 65_536, 99_999_999]),
            _ => self.random.between(1, 6),
        }
    }

    /// A step run whose output ends near where the chain's next frames would need it to.
    pub fn run_at_boundary(&mut self) {
        let mut bench = self.console.bench.clone();
        let length = self.length() as usize;
        let mut memory = self.console.memory[..length].to_vec();
        let mut output = vec![0; 65_536];
        let steps = self.random.between(0, 5);
        let sent = bench.run(&mut memory, &mut output, steps as u64).bytes;
        let room = sent + 1_517 + self.random.below(3);
        let allowance = self.allowance();
        self.say(format!("run {allowance} {}", room.min(65_536)));
        if self.random.once_in(3) {
            self.say("counters");
        }
    }

    /// Lends another length for a few calls.
    pub fn lend_wrong(&mut self) {
        let length = self.length() as usize;
        let wrong = match self.random.below(6) {
            0 => 0,
            1 => length.saturating_sub(1),
            2 => length + 1,
            3 => length.saturating_sub(4),
            4 => length + 4,
            _ => self.random.below(65_545),
        };
        self.say(format!("lend {wrong}"));
        for _ in 0..self.random.between(1, 6) {
            self.any();
        }
        self.say("check");
        self.say(format!("lend {length}"));
    }

    /// Any call that makes no new bench.
    pub fn any(&mut self) {
        match self.random.below(18) {
            0 | 1 => {
                self.frame();
            }
            2 | 3 => {
                let address = self.mark();
                self.say(format!("grant {address:x}"));
            }
            4 => {
                let room = self.room();
                self.say(format!("send {room}"));
            }
            5 => {
                let (allowance, room) = (self.allowance(), self.room());
                self.say(format!("run {allowance} {room}"));
            }
            6 => self.run_at_boundary(),
            7 | 8 => {
                let address = self.mark();
                self.say(format!("show {address:x}"));
            }
            9 => {
                let count = self.random.pick(&[0, 1, 2, 3, 32, 33, 99_999_999]);
                let address = self.mark();
                self.say(format!("ring {count} {address:x}"));
            }
            10 => {
                let address = self.address();
                let length = self.random.pick(&[0, 1, 2, 4, 4, 16]);
                let bytes = self.random.bytes(length);
                self.say(format!(
                    "poke {address:X} {}",
                    hex::write(&bytes).to_uppercase()
                ));
            }
            11 => self.peek(),
            12 => self.register_write(),
            13 | 14 => {
                self.burst();
            }
            15 | 16 => {
                self.say("tick");
                self.say("counters");
            }
            _ => self.register_read(),
        }
    }
}
