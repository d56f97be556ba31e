//! Why a frame was taken.

use std::fmt;

/// "The address rule should answer own, broadcast, group or receive-all, by first rule met, and not
/// only yes." The numbers are those of the C function, "1 to 4 in the order named, 0 for not taken";
/// the rule itself asks in another order.
#[derive(Clone, Copy, Debug, PartialEq, Eq)]
pub enum Reason {
    Own = 1,
    Broadcast = 2,
    Group = 3,
    ReceiveAll = 4,
}

/// "The packet status bits that RM0006 has for broadcast and multicast": figure 62 of 8.2.2, at the
/// places that 8.4.32 gives to BF and MCF too.
const BROADCAST_FRAME: u32 = 1 << 28;
const MULTICAST_FRAME: u32 = 1 << 27;

impl Reason {
    pub const ALL: [Reason; 4] = [
        Reason::Own,
        Reason::Broadcast,
        Reason::Group,
        Reason::ReceiveAll,
    ];

    /// The number of an answer of the address rule, 0 if the frame is not taken.
    pub fn number(answer: Option<Reason>) -> u32 {
        answer.map_or(0, |reason| reason as u32)
    }

    /// "Receiving passes the reason into the packet status bits that RM0006 has for broadcast and
    /// multicast, and leaves the others 0": one bit or none. It is the reason that counts and not the
    /// address, so that a frame taken by receive-all has none, whatever it is sent to.
    pub fn status_bits(self) -> u32 {
        match self {
            Reason::Broadcast => BROADCAST_FRAME,
            Reason::Group => MULTICAST_FRAME,
            Reason::Own | Reason::ReceiveAll => 0,
        }
    }
}

impl fmt::Display for Reason {
    fn fmt(&self, out: &mut fmt::Formatter) -> fmt::Result {
        out.write_str(match self {
            Reason::Own => "own",
            Reason::Broadcast => "broadcast",
            Reason::Group => "group",
            Reason::ReceiveAll => "receive-all",
        })
    }
}

#[cfg(test)]
mod tests {
    use super::*;

    #[test]
    fn numbers_in_the_order_named() {
        let numbers = Reason::ALL.map(|reason| Reason::number(Some(reason)));
        assert_eq!(numbers, [1, 2, 3, 4]);
        assert_eq!(Reason::number(None), 0);
        let names = Reason::ALL.map(|reason| reason.to_string());
        assert_eq!(names, ["own", "broadcast", "group", "receive-all"]);
    }

    #[test]
    fn one_bit_for_broadcast_and_one_for_a_group() {
        let bits = Reason::ALL.map(Reason::status_bits);
        assert_eq!(bits, [0, 0x1000_0000, 0x0800_0000, 0]);
    }
}
