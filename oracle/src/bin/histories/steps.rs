//! The steps of a history that are neither frames nor grants in ring order.

use crate::history::History;
use crate::step::Step;
use oracle::device::DESCRIPTOR_SIZE;
use oracle::random::Random;

/// The two interrupt registers, the only ones the firmware of a history may write.
const INTERRUPT: [u32; 2] = [0x04, 0x08];

const OFFSETS: [u32; 18] = [
    0x00, 0x04, 0x05, 0x08, 0x10, 0x1C, 0x30, 0x3C, 0x48, 0x49, 0x400, 0x404, 0x408, 0x40C, 0x40D,
    0x410, 0x411, 0x414,
];

/// Outputs too short for a send, and others.
const ROOMS: [usize; 4] = [0, 1_517, 1_518, 4_000];

impl History<'_> {
    pub fn other_step(&mut self, random: &mut Random) {
        match random.below(9) {
            0 => self.refused_grant(random),
            1 => self.register_write(random),
            2 => self.call(Step::Read {
                offset: random.pick(&OFFSETS),
            }),
            3 => self.call(Step::Send {
                room: random.pick(&ROOMS),
            }),
            4 => self.call(Step::Run {
                room: random.pick(&ROOMS),
                allowance: random.pick(&[0, 1, 4_096, 4_097]),
            }),
            5 => {
                let address = self.any_address(random);
                self.call(Step::Show(address));
            }
            6 => {
                let count = random.below(34) as u32;
                let first = self.any_address(random);
                self.call(Step::Ring { count, first });
            }
            7 => self.tick(),
            _ => self.firmware_write(random),
        }
        self.tally.met("other step");
    }

    /// A call of which nothing is claimed.
    fn call(&mut self, step: Step) {
        self.make(step);
    }

    /// "Ticks join demand 3's lists." Sending does not run, so that each clears the count.
    fn tick(&mut self) {
        if self.now.bench.ticks > 0 {
            self.tally.met("tick that clears a count");
        }
        self.call(Step::Tick);
        self.tally.met("tick");
    }

    fn any_address(&self, random: &mut Random) -> u32 {
        match random.below(3) {
            0 => random.word(),
            1 => self.now.bench.window.base as u32 + random.below(self.now.memory.len()) as u32,
            _ => random.pick(&self.now.ring),
        }
    }

    /// A grant call with any address; it is made only if it is refused.
    fn refused_grant(&mut self, random: &mut Random) {
        let address = self.any_address(random);
        let mut trial = self.now.memory.clone();
        if self.now.bench.grant(&mut trial, address) != 0 {
            self.make(Step::Grant(address));
            self.tally.met("grant refused at any address");
        }
    }

    /// Any write to an interrupt register; to others only if it is refused.
    fn register_write(&mut self, random: &mut Random) {
        let offset = random.pick(&OFFSETS);
        let value = random.word();
        let mut trial = self.now.bench.clone();
        if trial.write(offset, value) != 0 {
            self.tally.met("register write refused");
        } else if !INTERRUPT.contains(&offset) {
            return;
        }
        self.make(Step::Write { offset, value });
    }

    /// Any bytes into the window outside the ring's descriptors, buffers included.
    fn firmware_write(&mut self, random: &mut Random) {
        let length = random
            .pick(&[1, 4, 16, 300, 1_600])
            .min(self.now.memory.len());
        let place = random.below(self.now.memory.len() - length + 1);
        let base = self.now.bench.window.base as u32;
        let over = |address: &u32| {
            let descriptor = (address - base) as usize;
            descriptor < place + length && place < descriptor + DESCRIPTOR_SIZE as usize
        };
        if !self.now.ring.iter().any(over) {
            let bytes = random.bytes(length);
            self.make(Step::Firmware { place, bytes });
            self.tally.met("firmware write");
        }
    }
}
