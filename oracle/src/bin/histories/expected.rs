//! What a whole run must have met, or the claims would have said too little.

use crate::without_polling::{AT_THE_START, IN_ONE_WORD};
use oracle::reason::Reason;
use oracle::tally::Tally;

/// Met once at least.
const ONCE: [&str; 22] = [
    "frame delivered",
    "frame lost",
    "frame turned away",
    "frame in a burst delivered",
    "frame in a burst lost",
    "frame in a burst turned away",
    "burst",
    "burst of no pairs",
    "burst of 64 pairs",
    "burst in which the grants run out",
    "burst refused: over 64 pairs",
    "burst refused: another answer list",
    "pair outside the store",
    "grant",
    "grant refused in ring order",
    "grant refused at any address",
    "register write refused",
    "firmware write",
    "pair with never fewer grants: more delivered",
    "pair with never fewer grants: as many delivered",
    AT_THE_START,
    IN_ONE_WORD,
];

/// Group frames about which the hash decided.
const BY_HASH: [&str; 4] = [
    "frame passing by hash",
    "frame turned away by hash",
    "frame in a burst passing by hash",
    "frame in a burst turned away by hash",
];
const BY_HASH_LEAST: usize = 1_000;

/// Frames delivered by each reason, alone and in a burst. In one history the filter registers do not
/// change, so that starts of several settings have part in them.
const DELIVERED_LEAST: usize = 1_000;

pub fn delivered_name(kind: &str, reason: Reason) -> String {
    format!("{kind} delivered: {reason}")
}

fn delivered_names() -> impl Iterator<Item = String> {
    let kinds = ["frame", "frame in a burst"];
    kinds
        .into_iter()
        .flat_map(|kind| Reason::ALL.map(|reason| delivered_name(kind, reason)))
}

/// Ticks, starts with a count that a tick clears, and histories whose counters were held against
/// what was answered, each of them more than it was at the start.
const TICKS: [&str; 6] = [
    "tick",
    "tick that clears a count",
    COUNTED,
    COUNTED_DELIVERED,
    COUNTED_LOST,
    HISTORY_MADE_AGAIN,
];
const TICKS_LEAST: usize = 500;

pub const COUNTED: &str = "history whose counters are right";
pub const COUNTED_DELIVERED: &str = "history whose counters are right, frames delivered";
pub const COUNTED_LOST: &str = "history whose counters are right, frames lost";
pub const HISTORY_MADE_AGAIN: &str = "history made again by single receives";

/// Starts in each filter mode.
const START_LEAST: usize = 50;

pub fn start_name(mode: u32) -> String {
    format!("start in filter mode {mode}")
}

pub fn expect(tally: &mut Tally) {
    ONCE.iter().for_each(|kind| tally.expect(*kind));
    BY_HASH.iter().for_each(|kind| tally.expect(*kind));
    TICKS.iter().for_each(|kind| tally.expect(*kind));
    delivered_names().for_each(|kind| tally.expect(kind));
    (0..8).for_each(|mode| tally.expect(start_name(mode)));
}

/// How often a kind must be met.
pub fn least(kind: &str) -> usize {
    if BY_HASH.contains(&kind) {
        BY_HASH_LEAST
    } else if TICKS.contains(&kind) {
        TICKS_LEAST
    } else if delivered_names().any(|name| name == kind) {
        DELIVERED_LEAST
    } else if (0..8).any(|mode| start_name(mode) == kind) {
        START_LEAST
    } else {
        1
    }
}
