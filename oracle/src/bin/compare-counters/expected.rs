//! What a whole comparison must have met, and how often.

use crate::case::Case;
use crate::oracles::Made;
use oracle::device::{Counters, Window};
use oracle::numbers::{DONE, NOT_GRANTED};
use oracle::tally::Tally;
use oracle::trace::Event;

/// The stop.
const STOP: u32 = 4_294_967_295;

/// How often each way to the stop must be met in a whole comparison, and other kinds.
const LEAST: usize = 500;
const OTHER_LEAST: usize = 100;

/// A counter by its name.
#[derive(Clone, Copy)]
struct Counter {
    name: &'static str,
    of: fn(&Counters) -> u32,
}

const DELIVERED: Counter = Counter {
    name: "delivered",
    of: |counters| counters.delivered,
};
const LOST: Counter = Counter {
    name: "lost",
    of: |counters| counters.lost,
};
const SENT: Counter = Counter {
    name: "sent",
    of: |counters| counters.sent,
};

/// The ways in which frames of each come.
const WAYS: [(Counter, &str); 6] = [
    (DELIVERED, "a single call"),
    (LOST, "a single call"),
    (SENT, "a single call"),
    (DELIVERED, "a burst"),
    (LOST, "a burst"),
    (SENT, "a step run"),
];

/// How a counter that counts stands to its stop.
const KINDS: [&str; 4] = [
    "reaches the stop",
    "reaches the stop and stays there",
    "stays at the stop",
    "stays below the stop",
];

fn name(counter: Counter, way: &str, kind: &str) -> String {
    format!("{} {kind} by {way}", counter.name)
}

/// Names of the ways: a single call counts one, so that it cannot both reach the stop and stay.
fn ways() -> impl Iterator<Item = String> {
    WAYS.into_iter().flat_map(|(counter, way)| {
        let kinds = KINDS.into_iter().enumerate();
        kinds
            .filter(move |(place, _)| *place != 1 || way != "a single call")
            .map(move |(_, kind)| name(counter, way, kind))
    })
}

const ALL_AT_THE_STOP: &str = "all three at the stop at the end";
const COUNT_ABOVE: &str = "tick that fires, its count already above the value";
const COUNT_UP_TO: &str = "tick that fires, its count at the value";
const COUNT_BELOW: &str = "tick that counts one more";
const COUNT_GREATEST: &str = "tick that fires, its count at 4,294,967,295";
const COUNT_CLEARED: &str = "tick that clears a count";
const COUNT_REFUSED: &str = "tick refused by 11, and a count left";
const COUNT_SENT: &str = "count cleared by a step run";
const COUNT_VALUE_0: &str = "count kept at 0 by value 0";
const NO_WINDOW: &str = "window not allowed";
const FEW_ANSWERS: &str = "answers that do not fit";
const MORE_ANSWERS: &str = "answers left over";
const CUT: &str = "no whole event at the end";
const FOUND_SHORTER: &str = "fewer numbers found than there are";
const FOUND_LONGER: &str = "more numbers found than there are";
const BURST_REFUSED: &str = "burst refused by 16";
const RUN_REFUSED: &str = "step run refused by 10";
const OTHER_LENT: &str = "memory of another length";

const OTHERS: [&str; 18] = [
    ALL_AT_THE_STOP,
    COUNT_ABOVE,
    COUNT_UP_TO,
    COUNT_BELOW,
    COUNT_GREATEST,
    COUNT_CLEARED,
    COUNT_REFUSED,
    COUNT_SENT,
    COUNT_VALUE_0,
    NO_WINDOW,
    FEW_ANSWERS,
    MORE_ANSWERS,
    CUT,
    FOUND_SHORTER,
    FOUND_LONGER,
    BURST_REFUSED,
    RUN_REFUSED,
    OTHER_LENT,
];

pub fn expect(tally: &mut Tally) {
    ways().for_each(|name| tally.expect(name));
    OTHERS.iter().for_each(|name| tally.expect(*name));
}

pub fn least(kind: &str) -> usize {
    match ways().any(|name| name == kind) {
        true => LEAST,
        false => OTHER_LEAST,
    }
}

/// Counts that so many events came by this way to a counter that stood so before.
fn counted(tally: &mut Tally, counter: Counter, way: &str, before: &Counters, events: usize) {
    if events == 0 {
        return;
    }
    let room = (STOP - (counter.of)(before)) as usize;
    let kind = if room == 0 {
        KINDS[2]
    } else if events > room {
        KINDS[1]
    } else if events == room {
        KINDS[0]
    } else {
        KINDS[3]
    };
    tally.met(name(counter, way, kind));
}

/// What both kinds of case have.
pub fn count(tally: &mut Tally, case: &Case, made: &Made) {
    tally.met("cases");
    for (before, event, number) in &made.steps {
        match (event, *number) {
            (Event::Frame { .. }, DONE) => counted(tally, DELIVERED, "a single call", before, 1),
            (Event::Frame { .. }, NOT_GRANTED) => counted(tally, LOST, "a single call", before, 1),
            (Event::Send, DONE) => counted(tally, SENT, "a single call", before, 1),
            _ => {}
        }
    }
    let end = made.end;
    let events: usize = made
        .steps
        .iter()
        .map(|(_, event, _)| event.bytes().len())
        .sum();
    for (kind, met) in [
        (
            ALL_AT_THE_STOP,
            [end.delivered, end.lost, end.sent] == [STOP; 3],
        ),
        (
            NO_WINDOW,
            Window::allowed(case.base.into(), case.window.into()).is_none(),
        ),
        (FEW_ANSWERS, case.lent.answers.len() < made.steps.len()),
        (MORE_ANSWERS, case.lent.answers.len() > made.steps.len()),
        (CUT, events < case.events.len()),
        (FOUND_SHORTER, case.more_found < 0),
        (FOUND_LONGER, case.more_found > 0),
        (OTHER_LENT, case.lent.memory.len() != case.window as usize),
    ] {
        if met {
            tally.met(kind);
        }
    }
}

/// What the step run and the tick behind it did.
pub fn count_run(tally: &mut Tally, made: &Made) {
    let sent = made
        .answers
        .iter()
        .filter(|answer| **answer == DONE)
        .count();
    counted(tally, SENT, "a step run", &made.played, sent);
    let count = if sent > 0 { 0 } else { made.count };
    let (run, tick) = (made.numbers[0], made.numbers[3]);
    let (left, status) = (made.numbers[7], made.numbers[8]);
    let raised = status & 1 << 19 != 0;
    let value = made.time_out;
    for (kind, met) in [
        (RUN_REFUSED, run == 10),
        (COUNT_SENT, sent > 0 && made.count > 0),
        (COUNT_REFUSED, tick == 11 && count > 0),
        (COUNT_VALUE_0, tick == 0 && value == 0),
        (COUNT_BELOW, tick == 0 && left == u64::from(count) + 1),
        (
            COUNT_CLEARED,
            tick == 0 && left == 0 && !raised && count > 0,
        ),
        (COUNT_UP_TO, raised && count == value && value > 0),
        (COUNT_ABOVE, raised && count > value && value > 0),
        (COUNT_GREATEST, raised && count == u32::MAX),
    ] {
        if met {
            tally.met(kind);
        }
    }
}

/// What the burst did.
pub fn count_burst(tally: &mut Tally, made: &Made) {
    let of = |number: u32| {
        made.answers
            .iter()
            .filter(|other| **other == number)
            .count()
    };
    counted(tally, DELIVERED, "a burst", &made.played, of(DONE));
    counted(tally, LOST, "a burst", &made.played, of(NOT_GRANTED));
    if made.numbers[0] != 0 {
        tally.met(BURST_REFUSED);
    }
}
