//! Number 8 by its four kinds: which engine met it, and whether polling held for its place.

use crate::device::Bench;
use crate::numbers::NOT_GRANTED;
use crate::side::Side;
use crate::trace::{events, Event};
use std::fmt;

#[derive(Clone, Copy, Debug, PartialEq, Eq)]
pub struct Ungranted {
    pub side: Side,
    pub polling: bool,
}

impl Ungranted {
    pub fn all() -> impl Iterator<Item = Ungranted> {
        Side::BOTH
            .into_iter()
            .flat_map(|side| [true, false].map(|polling| Ungranted { side, polling }))
    }

    /// The kind of an 8 that this engine gave last: it leaves the flag as it was.
    pub fn of(side: Side, bench: &Bench) -> Ungranted {
        Ungranted {
            side,
            polling: side.of(bench).polling,
        }
    }

    /// Every 8 that a list of events meets on a new bench of this window, lent this memory and
    /// output.
    pub fn in_events(
        base: u32,
        length: u64,
        list: &[u8],
        mut memory: Vec<u8>,
        mut output: Vec<u8>,
    ) -> Vec<Ungranted> {
        let (mut bench, _) = Bench::new(base, length);
        let mut met = Vec::new();
        for event in events(list) {
            let answer = event.call(&mut bench, &mut memory, &mut output);
            if answer.number == NOT_GRANTED {
                let side = match event {
                    Event::Send => Side::Sending,
                    _ => Side::Receiving,
                };
                met.push(Ungranted::of(side, &bench));
            }
        }
        met
    }
}

impl fmt::Display for Ungranted {
    fn fmt(&self, out: &mut fmt::Formatter) -> fmt::Result {
        let with = if self.polling { "with" } else { "without" };
        write!(out, "8 on {} {with} polling", self.side)
    }
}

#[cfg(test)]
mod tests {
    use super::*;
    use crate::check;

    #[test]
    fn names_of_the_four_kinds() {
        let names: Vec<String> = Ungranted::all().map(|kind| kind.to_string()).collect();
        assert_eq!(
            names,
            [
                "8 on receiving with polling",
                "8 on receiving without polling",
                "8 on sending with polling",
                "8 on sending without polling",
            ]
        );
    }

    #[test]
    fn each_8_of_a_list_by_its_kind() {
        let write = |offset, value| Event::Write { offset, value };
        let frame = Event::Frame {
            bytes: check::closed(&[0xFF; 60]),
        };
        // Nothing is granted; the second start of each engine has the other bit.
        let list = [
            write(0x1C, 1),
            write(0x10, 5),
            frame.clone(),
            frame.clone(),
            write(0x30, 5),
            Event::Send,
            write(0x3C, 1),
            write(0x30, 5),
            Event::Send,
            write(0x10, 0),
            write(0x1C, 0),
            write(0x10, 5),
            frame,
        ];
        let list = Event::list(&list);
        let met = Ungranted::in_events(0, 64, &list, vec![0; 64], vec![0; 1_518]);
        let kind = |side, polling| Ungranted { side, polling };
        let wanted = [
            kind(Side::Receiving, true),
            kind(Side::Receiving, true),
            kind(Side::Sending, false),
            kind(Side::Sending, true),
            kind(Side::Receiving, false),
        ];
        assert_eq!(met, wanted);
    }
}
