//! Filter registers for scripts: stations, modes and hash tables of every kind.

use super::writer::Writer;
use crate::address::{ALL_MULTICAST_MODE, FILTER_MODE_SHIFT, HASH_MODE, RECEIVE_ALL};
use crate::groups;
use crate::tables::Table;

/// Offsets next to the hash registers that are not modelled.
const BESIDE: [u32; 3] = [0x40D, 0x411, 0x414];

impl Writer {
    /// All five filter registers.
    pub fn set_filter(&mut self) {
        let (high, low) = self.station();
        self.say(format!("write 408 {low:x}"));
        self.say(format!("write 404 {high:x}"));
        self.set_mode();
        self.set_table();
    }

    /// The registers of a station, whose first byte is the lowest one of the second. Most are single
    /// addresses: a group or the broadcast address is never taken as the station's own.
    fn station(&mut self) -> (u32, u32) {
        let (high, low) = (self.random.word(), self.random.word());
        match self.random.below(10) {
            0 => (high, low | 1),
            1 => (high | 0xFFFF, u32::MAX),
            _ => (high, low & !1),
        }
    }

    /// The mode or the hash table anew, in the middle of a script.
    pub fn change_filter(&mut self) {
        match self.random.below(3) {
            0 => self.set_mode(),
            _ => self.set_table(),
        }
    }

    /// Any filter mode, most often that of the hash, as it alone has more than one answer to a group,
    /// and all-multicast, the other one that takes any.
    fn set_mode(&mut self) {
        let mode = match self.random.below(8) {
            0..=2 => HASH_MODE,
            3 | 4 => ALL_MULTICAST_MODE,
            _ => self.random.below(8) as u32,
        };
        let mut control = mode << FILTER_MODE_SHIFT;
        if self.random.once_in(6) {
            control |= RECEIVE_ALL;
        }
        if self.random.once_in(3) {
            let filter = RECEIVE_ALL | 0b111 << FILTER_MODE_SHIFT;
            control |= self.random.word() & !filter;
        }
        self.say(format!("write 400 {control:x}"));
    }

    /// A hash table of any kind, its registers in either order, or one of them alone.
    fn set_table(&mut self) {
        let group = groups::any(&mut self.random);
        // Random tables take about half of all groups.
        let kind = match self.random.below(2) {
            0 => Table::Random,
            _ => self.random.pick(&Table::ALL),
        };
        let table = kind.make(group, &mut self.random);
        let high = format!("write 40c {:x}", (table >> 32) as u32);
        let low = format!("write 410 {:x}", table as u32);
        match self.random.below(4) {
            0 => {
                self.say(low);
                self.say(high);
            }
            1 => {
                let half = self.random.pick(&[&low, &high]).clone();
                self.say(half);
            }
            _ => {
                self.say(high);
                self.say(low);
            }
        }
        if self.random.once_in(3) {
            // Beside the registers nothing is written and nothing read.
            let beside = self.random.pick(&BESIDE);
            let value = self.random.word();
            self.say(format!("write {beside:x} {value:x}"));
            self.say(format!("read {beside:x}"));
        }
        if self.random.once_in(4) {
            self.say("read 40c");
            self.say("read 410");
        }
    }
}
