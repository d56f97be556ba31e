//! How a frame was taken, as the tallies tell it: by its reason, and a group by what selected it.

use crate::address::{Filter, HASH_MODE};
use crate::reason::Reason;
use std::fmt;

#[derive(Clone, Copy, Debug, PartialEq, Eq)]
pub enum Taken {
    Own,
    Broadcast,
    AllMulticast,
    Hash,
    ReceiveAll,
}

impl Taken {
    pub const ALL: [Taken; 5] = [
        Taken::Own,
        Taken::Broadcast,
        Taken::AllMulticast,
        Taken::Hash,
        Taken::ReceiveAll,
    ];

    /// How a station with these registers takes the frame, if it does.
    pub fn of(frame: &[u8], filter: &Filter) -> Option<Taken> {
        Some(match filter.reason(frame)? {
            Reason::Own => Taken::Own,
            Reason::Broadcast => Taken::Broadcast,
            Reason::Group if filter.mode() == HASH_MODE => Taken::Hash,
            Reason::Group => Taken::AllMulticast,
            Reason::ReceiveAll => Taken::ReceiveAll,
        })
    }
}

impl fmt::Display for Taken {
    fn fmt(&self, out: &mut fmt::Formatter) -> fmt::Result {
        out.write_str(match self {
            Taken::Own => "own",
            Taken::Broadcast => "broadcast",
            Taken::AllMulticast => "group by all-multicast",
            Taken::Hash => "group by hash",
            Taken::ReceiveAll => "receive-all",
        })
    }
}

#[cfg(test)]
mod tests {
    use super::*;

    const OWN: [u8; 6] = [2, 0, 0, 0, 0, 1];
    /// Index 3: bit 3 of the low register.
    const PAUSE: [u8; 6] = [0x01, 0x80, 0xC2, 0x00, 0x00, 0x01];

    #[test]
    fn a_group_by_what_selected_it() {
        let taken = |destination: [u8; 6], control: u32| {
            let filter = Filter {
                control,
                ..Filter::of_station(OWN).with_table(1 << 3)
            };
            Taken::of(&destination, &filter)
        };
        let modes = |destination| [0, 1, 5].map(|mode| taken(destination, mode << 17));
        assert_eq!(
            modes(PAUSE),
            [None, Some(Taken::Hash), Some(Taken::AllMulticast)]
        );
        assert_eq!(modes(OWN), [Some(Taken::Own); 3]);
        assert_eq!(modes([0xFF; 6]), [Some(Taken::Broadcast); 3]);
        assert_eq!(modes([4; 6]), [None; 3]);
        for mode in 0..8 {
            let all = 1 << 31 | mode << 17;
            for destination in [OWN, PAUSE, [0xFF; 6], [4; 6]] {
                assert_eq!(taken(destination, all), Some(Taken::ReceiveAll));
            }
        }
    }
}
