//! The twelve modelled registers with their positions from chapter 8 of RM0006: nine of the base, the
//! two hash registers, which "leave row 2's reach", and ENET_TXTOR, which "joins the modelled
//! registers".

#[derive(Clone, Copy, Debug, PartialEq, Eq)]
pub enum Name {
    InterruptEnable,
    InterruptStatus,
    ReceiveStart,
    ReceiveNext,
    SendStart,
    SendNext,
    MacControl,
    AddressHigh,
    AddressLow,
    HashHigh,
    HashLow,
    SendTimeOut,
}

/// Where a register stands, what it holds after reset and which bits a write reaches.
pub struct Form {
    pub name: Name,
    pub offset: u32,
    pub reset: u32,
    pub writable: u32,
}

const fn form(name: Name, offset: u32, reset: u32, writable: u32) -> Form {
    Form {
        name,
        offset,
        reset,
        writable,
    }
}

/// How many registers are modelled.
const COUNT: usize = 12;

/// In the order of `Name`.
pub const FORMS: [Form; COUNT] = [
    form(Name::InterruptEnable, 0x004, 0x0000_0000, 0x92CF_82EF),
    form(Name::InterruptStatus, 0x008, 0x0005_0001, 0x92CF_82EF),
    form(Name::ReceiveStart, 0x010, 0x0000_0000, 0x00FF_FFE5),
    form(Name::ReceiveNext, 0x01C, 0x0000_0000, 0xFFFF_FFFD),
    form(Name::SendStart, 0x030, 0x0000_0000, 0x00FF_FF25),
    form(Name::SendNext, 0x03C, 0x0000_0000, 0xFFFF_FFFD),
    form(Name::MacControl, 0x400, 0x0000_0000, 0xC3FF_9FFD),
    form(Name::AddressHigh, 0x404, 0x0000_FFFF, 0x0000_FFFF),
    form(Name::AddressLow, 0x408, 0xFFFF_FFFF, 0xFFFF_FFFF),
    form(Name::HashHigh, 0x40C, 0x0000_0000, 0xFFFF_FFFF),
    form(Name::HashLow, 0x410, 0x0000_0000, 0xFFFF_FFFF),
    // "It is 16 bits and writable, though its cells say r."
    form(Name::SendTimeOut, 0x048, 0x0000_0000, 0x0000_FFFF),
];

/// Status and enable bits that the base raises, and the time-out of sending.
pub const TX_CURR_DONE: u32 = 1 << 31;
pub const TX_DONE: u32 = 1 << 23;
pub const TX_TO: u32 = 1 << 19;
pub const RX_CURR_DONE: u32 = 1 << 15;
pub const RX_DONE: u32 = 1 << 7;
pub const PACKET_LOST: u32 = 1 << 5;

/// Bits of both start registers.
pub const START_FETCH: u32 = 1 << 2;
pub const DMA_ENABLE: u32 = 1 << 0;

#[derive(Clone, Debug, PartialEq, Eq)]
pub struct Registers {
    values: [u32; COUNT],
}

impl Registers {
    pub fn reset() -> Registers {
        Registers {
            values: FORMS.each_ref().map(|form| form.reset),
        }
    }

    /// The register at exactly this offset, if it is modelled.
    pub fn at(offset: u32) -> Option<&'static Form> {
        FORMS.iter().find(|form| form.offset == offset)
    }

    pub fn get(&self, name: Name) -> u32 {
        self.values[name as usize]
    }

    /// A write as the register's bits take it: status bits are cleared by ones, others stored.
    pub fn put(&mut self, form: &Form, value: u32) {
        let reached = value & form.writable;
        let held = &mut self.values[form.name as usize];
        *held = match form.name {
            Name::InterruptStatus => *held & !reached,
            _ => reached,
        };
    }

    /// Sets status bits, as the device does.
    pub fn raise(&mut self, bits: u32) {
        self.values[Name::InterruptStatus as usize] |= bits;
    }
}

#[cfg(test)]
mod tests {
    use super::*;

    #[test]
    fn forms_stand_in_the_order_of_their_names() {
        for (place, form) in FORMS.iter().enumerate() {
            assert_eq!(form.name as usize, place);
        }
    }

    #[test]
    fn writable_bits_by_their_places() {
        let bits = |places: &[u32]| places.iter().map(|place| 1 << place).sum::<u32>();
        let status = bits(&[
            31, 28, 25, 23, 22, 19, 18, 17, 16, 15, 9, 7, 6, 5, 3, 2, 1, 0,
        ]);
        assert_eq!(Registers::at(0x04).unwrap().writable, status);
        assert_eq!(Registers::at(0x08).unwrap().writable, status);
        assert_eq!(
            Registers::at(0x10).unwrap().writable,
            0x00FF_FF00 + bits(&[7, 6, 5, 2, 0])
        );
        assert_eq!(
            Registers::at(0x30).unwrap().writable,
            0x00FF_FF00 + bits(&[5, 2, 0])
        );
        assert_eq!(
            Registers::at(0x400).unwrap().writable,
            !bits(&[29, 28, 27, 26, 14, 13, 1])
        );
        assert_eq!(Registers::at(0x48).unwrap().writable, 0xFFFF);
    }
}
