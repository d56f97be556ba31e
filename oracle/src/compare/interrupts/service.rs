//! Counts what is answered, taken into service and ended, by where it comes from.

use crate::console::Interrupts;
use crate::tally::Tally;
use crate::vic::registers::Register;
use crate::vic::{Levels, Pair, Rank, Request, ETHERNET};
use std::ops::RangeInclusive;

/// How often each source must be answered and taken in a whole comparison.
const SOURCE_LEAST: usize = 1_000;
/// The other kinds.
const LEAST: usize = 500;
/// A nesting that counts as deep.
const DEEP: usize = 5;

const DEEP_TAKEN: &str = "interrupt taken, five deep or deeper";
const ETHERNET_TAKEN: &str = "interrupt taken, the bench's line";
const SOFTWARE_ANSWERED: &str = "irq of a software interrupt alone";
const SOFTWARE_TAKEN: &str = "interrupt taken, a software interrupt alone";
const NONE_RAISED: &str = "VIC0_VAR read with nothing raised";
const ALL_MASKED: &str = "VIC0_VAR read with all raised masked by service";

const SOURCES: [&str; 4] = [
    "VIC0 by slot",
    "VIC0 without a slot",
    "VIC1 by slot",
    "VIC1 without a slot",
];
const NO_ANSWER: &str = "irq, none";

/// What is in service at an access to a VAR.
const LAST_TAKEN: [&str; 3] = [
    "none in service",
    "the last taken from VIC0",
    "the last taken from VIC1",
];

fn answered_name(source: &str) -> String {
    format!("irq, {source}")
}

fn taken_name(source: &str) -> String {
    format!("interrupt taken, {source}")
}

fn written_name(controller: usize, last: &str) -> String {
    format!("VIC{controller}_VAR written, {last}")
}

fn read_name(last: &str) -> String {
    format!("VIC1_VAR read, {last}")
}

/// Nestings by their depths, 1 being one that interrupts no other, and how often each must be met:
/// the deepest, with every rank in service, is made by hand.
const DEPTHS: [(RangeInclusive<usize>, usize); 9] = [
    (1..=1, 100),
    (2..=2, 100),
    (3..=3, 100),
    (4..=4, 100),
    (5..=8, LEAST),
    (9..=16, LEAST),
    (17..=32, 1),
    (33..=63, 1),
    (64..=64, 1),
];

fn depths_name(depths: &RangeInclusive<usize>) -> String {
    let (first, last) = (depths.start(), depths.end());
    format!("interrupt taken at depth {first:>2} to {last:>2}")
}

pub fn names() -> impl Iterator<Item = (String, usize)> {
    let sources = SOURCES
        .into_iter()
        .flat_map(|source| [answered_name(source), taken_name(source)])
        .chain([NO_ANSWER.to_string()])
        .map(|name| (name, SOURCE_LEAST));
    let by_last = LAST_TAKEN.into_iter().flat_map(|last| {
        let written = [0, 1].map(|controller| written_name(controller, last));
        written.into_iter().chain([read_name(last)])
    });
    let others = [
        DEEP_TAKEN,
        ETHERNET_TAKEN,
        SOFTWARE_ANSWERED,
        SOFTWARE_TAKEN,
        NONE_RAISED,
        ALL_MASKED,
    ];
    let others = others.map(String::from).into_iter().chain(by_last);
    let depths = DEPTHS
        .into_iter()
        .map(|(depths, least)| (depths_name(&depths), least));
    sources
        .chain(others.map(|name| (name, LEAST)))
        .chain(depths)
}

/// Counts a call to controllers that were so before it, with their inputs at these levels.
pub fn count(tally: &mut Tally, call: Interrupts, before: &Pair, levels: Levels) {
    match call {
        Interrupts::Irq => answered(tally, before, levels),
        Interrupts::Read { controller, offset } if is_var(offset) => match controller {
            0 => taken(tally, before, levels),
            _ => tally.met(read_name(last_taken(before))),
        },
        Interrupts::Write {
            controller, offset, ..
        } if is_var(offset) => tally.met(written_name(controller, last_taken(before))),
        _ => {}
    }
}

fn is_var(offset: u32) -> bool {
    offset == Register::CurrentVector.offset()
}

fn last_taken(pair: &Pair) -> &'static str {
    match pair.service.last() {
        None => LAST_TAKEN[0],
        Some(rank) => LAST_TAKEN[1 + rank.controller()],
    }
}

fn answered(tally: &mut Tally, pair: &Pair, levels: Levels) {
    let Some(request) = pair.answer(levels) else {
        tally.met(NO_ANSWER);
        return;
    };
    tally.met(answered_name(source(request.rank)));
    if is_software(request, levels) {
        tally.met(SOFTWARE_ANSWERED);
    }
}

fn taken(tally: &mut Tally, pair: &Pair, levels: Levels) {
    let Some(request) = pair.answer(levels) else {
        let mut both = pair.controllers.iter().zip(levels);
        let raised = both.any(|(held, levels)| held.irq_status(levels) != 0);
        tally.met(if raised { ALL_MASKED } else { NONE_RAISED });
        return;
    };
    let depth = pair.service.len() + 1;
    tally.met(taken_name(source(request.rank)));
    let depths = DEPTHS.iter().find(|(depths, _)| depths.contains(&depth));
    if let Some((depths, _)) = depths {
        tally.met(depths_name(depths));
    }
    if depth >= DEEP {
        tally.met(DEEP_TAKEN);
    }
    if is_software(request, levels) {
        tally.met(SOFTWARE_TAKEN);
    } else if (request.rank.controller(), request.input) == ETHERNET {
        tally.met(ETHERNET_TAKEN);
    }
}

fn source(rank: Rank) -> &'static str {
    SOURCES[rank.0 / 16]
}

/// Whether a request's input is low, so that only software raises it.
fn is_software(request: Request, levels: Levels) -> bool {
    levels[request.rank.controller()] >> request.input & 1 == 0
}
