//! Cases made by hand: every counter from every place near its stop, by each way.

use crate::case::{Case, Lent};
use oracle::check;
use oracle::device::Counters;
use oracle::trace::Event;

const WINDOW: u32 = 1_024;
const GRANTED: u32 = 1 << 16;
const POLLING: u32 = 1;
/// How many of each ring are granted.
const GRANTS: u32 = 4;

/// Two rings of five descriptors, of which four are granted.
fn memory() -> Vec<u8> {
    let mut memory = vec![0xA5; WINDOW as usize];
    for own in 0..10_u32 {
        let first = own / 5 * 5;
        let next = first + (own + 1) % 5;
        let words = [
            80 | 1 << 14,
            0x100 + 64 * own,
            16 * next | POLLING,
            if own % 5 < GRANTS { GRANTED } else { 0 },
        ];
        let bytes = words.map(u32::to_le_bytes).concat();
        memory[16 * own as usize..16 * own as usize + 16].copy_from_slice(&bytes);
    }
    memory
}

fn started() -> Vec<Event> {
    [
        (0x400, 1 << 31),
        (0x1C, POLLING),
        (0x10, 5),
        (0x3C, 0x50 | POLLING),
        (0x30, 5),
        (0x48, 3),
    ]
    .map(|(offset, value)| Event::Write { offset, value })
    .to_vec()
}

/// From each place near the stop: as many frames and sends as there are grants and two more, each
/// number of them by single calls and the rest by the burst or the step run.
pub fn cases() -> Vec<Case> {
    let frame = check::closed(&[0xFF; 60]);
    let mut cases = Vec::new();
    for below in (0..8).chain([u32::MAX]) {
        for singly in 0..=6 {
            let mut events = started();
            for _ in 0..singly {
                events.push(Event::Frame {
                    bytes: frame.clone(),
                });
                events.push(Event::Send);
            }
            let near = u32::MAX - below;
            let rest = 6 - singly;
            cases.push(Case {
                base: 0,
                window: WINDOW,
                counters: Counters {
                    delivered: near,
                    lost: near,
                    sent: near,
                },
                count: below,
                events: Event::list(&events),
                allowance: rest as u32,
                store: frame.clone(),
                starts: vec![0; rest],
                lengths: vec![64; rest],
                lent: Lent {
                    memory: memory(),
                    output: vec![0xB6; 9_000],
                    answers: vec![99; events.len()],
                    list: vec![99; rest],
                },
                more_found: 0,
            });
        }
    }
    cases
}
