//! Counts the frames about which the hash decided, alone and in bursts, and how its registers and
//! the offsets beside them were reached.

use super::came::Came;
use crate::address::Filter;
use crate::console::Call;
use crate::numbers::{CHAIN_FAULT, DONE, FRAME_ADDRESS, NOT_GRANTED};
use crate::tally::Tally;

/// How often the hash must have decided in each way, in all and where a frame came.
const ALL_LEAST: usize = 2_000;
const ALONE_LEAST: usize = 500;
const BURST_LEAST: usize = 1_000;
/// How often a frame must have come to the address rule in each filter mode.
const MODE_LEAST: usize = 1_000;

const REGISTERS: [&str; 2] = ["40c", "410"];
/// Offsets next to them that are not modelled.
const BESIDE: [&str; 3] = ["40d", "411", "414"];

/// The numbers of a frame that came as far as the address rule: it was turned away there, or went on
/// to the descriptor.
const AT_THE_RULE: [u32; 4] = [DONE, FRAME_ADDRESS, CHAIN_FAULT, NOT_GRANTED];

fn way(accepted: bool) -> &'static str {
    match accepted {
        true => "accepted by hash",
        false => "refused by hash",
    }
}

fn all_name(accepted: bool) -> String {
    format!("frame {}", way(accepted))
}

fn came_name(accepted: bool, came: Came) -> String {
    format!("frame {came} {}", way(accepted))
}

fn mode_name(mode: u32) -> String {
    format!("frame at the address rule in mode {mode}")
}

fn access_name(call: &str, offset: &str) -> String {
    format!("{call} at {offset}")
}

pub fn expect(tally: &mut Tally) {
    for accepted in [false, true] {
        tally.expect(all_name(accepted));
        for came in Came::BOTH {
            tally.expect(came_name(accepted, came));
        }
    }
    for mode in 0..8 {
        tally.expect(mode_name(mode));
    }
    for call in ["read", "write"] {
        for offset in REGISTERS.into_iter().chain(BESIDE) {
            tally.expect(access_name(call, offset));
        }
    }
}

/// How often a kind must be met in a whole comparison, if the hash asks for more than others do.
pub fn least(kind: &str) -> Option<usize> {
    let decided = [false, true].into_iter().flat_map(|accepted| {
        [
            (all_name(accepted), ALL_LEAST),
            (came_name(accepted, Came::Alone), ALONE_LEAST),
            (came_name(accepted, Came::InABurst), BURST_LEAST),
        ]
    });
    let modes = (0..8).map(|mode| (mode_name(mode), MODE_LEAST));
    let mut asked = decided.chain(modes);
    asked.find(|(name, _)| name == kind).map(|(_, least)| least)
}

/// Counts what a line and its answer say. `filter` has the registers that its frames met; no frame
/// changes them.
pub fn count(tally: &mut Tally, line: &[u8], answer: &str, filter: &Filter) {
    let mut words = answer.split(' ');
    let call = words.next().unwrap_or_default();
    let mut numbers = words.map_while(|word| word.parse().ok());
    match (call, Call::parse(line)) {
        ("frame", Some(Call::Frame { bytes })) => {
            let number = numbers.next().expect("a frame is answered by a number");
            frame(tally, &bytes, number, filter, Came::Alone);
        }
        ("burst", Some(Call::Burst(burst))) if numbers.next() == Some(DONE) => {
            for (bytes, number) in burst.frames().zip(numbers) {
                // A pair outside its store has no bytes.
                if let Some(bytes) = bytes {
                    frame(tally, bytes, number, filter, Came::InABurst);
                }
            }
        }
        ("read", Some(Call::Read { offset })) | ("write", Some(Call::Write { offset, .. })) => {
            let offset = format!("{offset:x}");
            if REGISTERS.iter().chain(&BESIDE).any(|name| *name == offset) {
                tally.met(access_name(call, &offset));
            }
        }
        _ => {}
    }
}

fn frame(tally: &mut Tally, bytes: &[u8], number: u32, filter: &Filter, came: Came) {
    if !AT_THE_RULE.contains(&number) {
        return;
    }
    tally.met(mode_name(filter.mode()));
    if filter.asks_hash(bytes) {
        let accepted = number != FRAME_ADDRESS;
        tally.met(all_name(accepted));
        tally.met(came_name(accepted, came));
    }
}

#[cfg(test)]
mod tests;
