//! Register accesses: every offset, bit by bit, and each kind of start write.

use super::calls::OFFSETS;
use super::writer::Writer;

/// Registers of chapter 8 that are not modelled, and offsets beside the modelled ones or past its end.
const OTHERS: [u32; 25] = [
    0x00,
    0x0C,
    0x14,
    0x18,
    0x20,
    0x24,
    0x28,
    0x2C,
    0x34,
    0x38,
    0x40,
    0x44,
    0x47,
    0x49,
    0x4C,
    0x100,
    0x200,
    0x40B,
    0x40D,
    0x40F,
    0x411,
    0x414,
    0x42C,
    0x430,
    0x8000_0004,
];

impl Writer {
    pub fn offset(&mut self) -> u32 {
        let modelled = self.random.pick(&OFFSETS);
        match self.random.below(8) {
            0 => self.random.pick(&OTHERS),
            1 => modelled + self.random.between(1, 3) as u32,
            2 if self.random.once_in(2) => self.random.below(0x440) as u32,
            3 if self.random.once_in(4) => modelled | 1 << self.random.between(11, 31),
            _ => modelled,
        }
    }

    pub fn register_read(&mut self) {
        let offset = self.offset();
        self.say(format!("read {offset:x}"));
    }

    pub fn register_write(&mut self) {
        let offset = self.offset();
        let value = match offset {
            0x10 | 0x30 => self.start_value(),
            0x1C | 0x3C => self.mark() | self.low_bits(),
            0x48 => self.time_out(),
            _ => self.value(),
        };
        self.say(format!("write {offset:X} {value:X}"));
    }

    fn value(&mut self) -> u32 {
        match self.random.below(6) {
            0 => 0,
            1 => u32::MAX,
            2 => 1 << self.random.below(32),
            3 => !(1 << self.random.below(32)),
            _ => self.random.word(),
        }
    }
}

pub fn of_all_kinds(writer: &mut Writer) {
    writer.new_bench(64);
    writer.observe();
    match writer.random.below(3) {
        0 => each_bit(writer),
        1 => starts(writer),
        _ => {
            for _ in 0..60 {
                writer.register_write();
                writer.register_read();
                if writer.random.once_in(4) {
                    writer.observe();
                }
            }
        }
    }
}

/// One register, each bit written alone and left out alone.
fn each_bit(writer: &mut Writer) {
    let offset = writer.random.pick(&OFFSETS);
    for bit in 0..32 {
        for value in [1 << bit, !(1 << bit)] {
            writer.say(format!("write {offset:x} {value:08x}"));
            writer.say(format!("read {offset:x}"));
            writer.say("line");
        }
    }
    writer.observe();
}

/// Start writes in every order, with next-descriptor writes while running and not.
fn starts(writer: &mut Writer) {
    let engines = [(0x10, 0x1C), (0x30, 0x3C)];
    for _ in 0..40 {
        let (start, next) = writer.random.pick(&engines);
        let value = writer.start_value();
        writer.say(format!("write {start:x} {value:x}"));
        writer.say("state");
        if writer.random.once_in(2) {
            let value = writer.random.word();
            writer.say(format!("write {next:x} {value:x}"));
            writer.say(format!("read {next:x}"));
        }
        if writer.random.once_in(4) {
            writer.any();
            writer.observe();
        }
    }
}
