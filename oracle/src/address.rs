//! The address rule, on the numbers that the registers hold.

use crate::hash;
use crate::reason::Reason;

/// MAC control: receive all, RA.
pub const RECEIVE_ALL: u32 = 1 << 31;
/// MAC control: address filter mode, AFM[2:0].
pub const FILTER_MODE_SHIFT: u32 = 17;
/// The one mode that counts as all-multicast: perfect address, all multicast frames received.
pub const ALL_MULTICAST_MODE: u32 = 0b101;
/// "The mode of perfect address and multicast hash."
pub const HASH_MODE: u32 = 0b001;

/// The broadcast address.
pub const BROADCAST: [u8; 6] = [0xFF; 6];

/// The registers that the address rule goes by: MAC control, MAC address high and low, multicast
/// hash high and low.
#[derive(Clone, Copy, Debug, PartialEq, Eq)]
pub struct Filter {
    pub control: u32,
    pub high: u32,
    pub low: u32,
    pub hash_high: u32,
    pub hash_low: u32,
}

impl Filter {
    /// A station by its address, with receive-all off, filter mode 0 and no hash bit set.
    pub fn of_station(station: [u8; 6]) -> Filter {
        let (high, low) = registers(station);
        Filter {
            control: 0,
            high,
            low,
            hash_high: 0,
            hash_low: 0,
        }
    }

    /// The same with the 64 bits of a hash table, the high register in the upper half.
    pub fn with_table(self, table: u64) -> Filter {
        Filter {
            hash_high: (table >> 32) as u32,
            hash_low: table as u32,
            ..self
        }
    }

    pub fn station(&self) -> [u8; 6] {
        station(self.high, self.low)
    }

    pub fn receive_all(&self) -> bool {
        self.control & RECEIVE_ALL != 0
    }

    /// The filter mode, 0 to 7.
    pub fn mode(&self) -> u32 {
        self.control >> FILTER_MODE_SHIFT & 0b111
    }

    /// Why a station with these registers takes the frame, "by first rule met", or nothing if it does
    /// not: "receive-all set, accept; destination of six bytes FF, accept; lowest bit of the first
    /// destination byte set, accept exactly if all-multicast is selected; otherwise accept exactly if
    /// the six bytes equal the station address". A frame under 6 bytes is not taken.
    pub fn reason(&self, frame: &[u8]) -> Option<Reason> {
        let destination = frame.first_chunk::<6>()?;
        if self.receive_all() {
            return Some(Reason::ReceiveAll);
        }
        if destination.iter().all(|byte| *byte == 0xFF) {
            return Some(Reason::Broadcast);
        }
        if destination[0] % 2 == 1 {
            // The hash mode "replaces only the group branch of the address rule; receive-all and
            // broadcast still come first". What the hash takes is a group like any other.
            let selected = match self.mode() {
                ALL_MULTICAST_MODE => true,
                HASH_MODE => hash::selected(*destination, self.hash_high, self.hash_low),
                _ => false,
            };
            return selected.then_some(Reason::Group);
        }
        (*destination == self.station()).then_some(Reason::Own)
    }

    /// What the C function answers: 1 to 4 by the reason, 0 for not taken.
    pub fn answer(&self, frame: &[u8]) -> u32 {
        Reason::number(self.reason(frame))
    }

    /// Whether a station with these registers takes the frame.
    pub fn accepts(&self, frame: &[u8]) -> bool {
        self.answer(frame) != 0
    }

    /// Whether the hash registers decide about the frame. For the tallies: the rule does not use it.
    pub fn asks_hash(&self, frame: &[u8]) -> bool {
        let group = frame.len() >= 6 && frame[0] & 1 == 1 && frame[..6] != BROADCAST;
        group && self.mode() == HASH_MODE && !self.receive_all()
    }
}

/// The station address in wire order. The first byte is the low byte of the low register, the last
/// one bits 15:8 of the high register, whose upper half is reserved.
fn station(high: u32, low: u32) -> [u8; 6] {
    let [first, second, third, fourth] = low.to_le_bytes();
    let [fifth, sixth, _, _] = high.to_le_bytes();
    [first, second, third, fourth, fifth, sixth]
}

/// The high and low register values of a station address in wire order.
fn registers(station: [u8; 6]) -> (u32, u32) {
    let [first, second, third, fourth, fifth, sixth] = station;
    (
        u32::from_le_bytes([fifth, sixth, 0, 0]),
        u32::from_le_bytes([first, second, third, fourth]),
    )
}

#[cfg(test)]
mod tests;
