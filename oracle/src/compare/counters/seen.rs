//! What becomes of the count of ticks and of the counters, as far as a following line shows it before
//! something else can have hidden it.

use super::happened::{Found, Happened};
use crate::console::{Call, Console};
use crate::device::registers::TX_TO;
use crate::numbers::{DONE, NOT_GRANTED};
use crate::side::Side;
use crate::tally::Tally;

/// Each kind that `counters` shows, and how often it must have been seen in a whole comparison.
const COUNTED: &str = "count seen: one more";
const FIRED: &str = "count seen: 0 behind a time-out";
const AGAIN: &str = "count seen: going up again behind a time-out";
const STOPPED: &str = "count seen: cleared by a tick, sending stopped";
const RETURNED: &str = "count seen: cleared by a tick, descriptor returned";
const OUTSIDE: &str = "count seen: cleared by a tick, descriptor outside";
const SENT: &str = "count seen: cleared by a send";
const SENT_IN_A_RUN: &str = "count seen: cleared by a step run";
const WRITTEN_ZERO: &str = "count seen: cleared by writing 0";
const WRITTEN_MASKED: &str = "count seen: cleared by writing 0 with bits above the sixteen";
const WRITTEN_OTHER: &str = "count seen: left by writing another value";
const LEFT_BY_11: &str = "count seen: left by a tick that 11 refused";
const VALUE_0: &str = "count seen: 0 behind a tick with value 0 and a grant";
const BURST_DELIVERED: &str = "counters seen: behind a burst that delivered more than one";
const BURST_LOST: &str = "counters seen: behind a burst that lost more than one";
const RUN_SENT: &str = "counters seen: behind a step run that sent more than one";

const BY_COUNTERS: [(&str, usize); 16] = [
    (COUNTED, 1_000),
    (FIRED, 1_000),
    (AGAIN, 1_000),
    (STOPPED, 400),
    (RETURNED, 400),
    (OUTSIDE, 400),
    (SENT, 500),
    (SENT_IN_A_RUN, 500),
    (WRITTEN_ZERO, 200),
    (WRITTEN_MASKED, 200),
    (WRITTEN_OTHER, 200),
    (LEFT_BY_11, 500),
    (VALUE_0, 500),
    (BURST_DELIVERED, 500),
    (BURST_LOST, 500),
    (RUN_SENT, 500),
];

/// And each that a read of the status register shows, which had TX_TO clear before.
const RAISED: &str = "TX_TO seen: set by a tick";
const RAISED_AGAIN: &str = "TX_TO seen: set again, counted from the last time-out on";
const NOT_YET: &str = "TX_TO seen: clear behind a tick that counts up to the value";

const BY_STATUS: [(&str, usize); 3] = [(RAISED, 1_000), (RAISED_AGAIN, 1_000), (NOT_YET, 200)];

/// The refusals of a send that must have left a count.
const REFUSALS: [u32; 6] = [3, 7, 8, 9, 11, 12];
const REFUSAL_LEAST: usize = 100;

fn refusal_name(number: u32) -> String {
    format!("count seen: left by a send that {number} refused")
}

/// Lines on which a counter is not 0.
const NOT_ZERO: [&str; 4] = [
    "counters line: delivered is not 0",
    "counters line: lost is not 0",
    "counters line: sent is not 0",
    "counters line: the count is not 0",
];
const NOT_ZERO_LEAST: usize = 1_000;

pub fn names() -> impl Iterator<Item = (String, usize)> {
    let named = BY_COUNTERS.into_iter().chain(BY_STATUS);
    named
        .map(|(name, least)| (name.to_string(), least))
        .chain(REFUSALS.map(|number| (refusal_name(number), REFUSAL_LEAST)))
        .chain(NOT_ZERO.map(|name| (name.to_string(), NOT_ZERO_LEAST)))
}

/// Follows the count through a script.
#[derive(Default)]
pub struct Watch {
    /// What the next `counters` and the next read of the status show.
    by_counters: Vec<String>,
    by_status: Vec<&'static str>,
    /// Before the line: the count, and whether TX_TO was set.
    count: u32,
    raised: bool,
    /// Whether the count goes on from a time-out, nothing else having cleared it.
    from_a_fire: bool,
}

impl Watch {
    /// Counts what a line shows, and what it leaves to be seen. The console has taken the line.
    pub fn count(
        &mut self,
        tally: &mut Tally,
        call: &Call,
        happened: &Happened,
        console: &Console,
    ) {
        let (_, value) = console.bench.read(0x48);
        match happened {
            Happened::New { .. } => *self = Watch::default(),
            Happened::Tick { found: Some(found) } => {
                self.forget();
                self.ticked(found[Side::Sending as usize], value);
            }
            Happened::Tick { found: None } => {
                self.forget();
                self.show(self.count > 0, LEFT_BY_11);
            }
            Happened::Sent { numbers, run } => {
                self.forget();
                self.sent(numbers, *run);
            }
            Happened::Write {
                offset: 0x48,
                value: written,
                ..
            } => {
                self.forget();
                self.written(*written, value);
            }
            Happened::Write { offset: 0x08, .. } => self.by_status.clear(),
            Happened::Write { .. } => {}
            Happened::Received {
                numbers,
                burst: true,
            } => {
                let more = |answer| numbers.iter().filter(|number| **number == answer).count() > 1;
                let [delivered, lost] = [DONE, NOT_GRANTED].map(more);
                self.show(delivered, BURST_DELIVERED);
                self.show(lost, BURST_LOST);
            }
            Happened::Received { .. } => {}
            Happened::Other => self.shown(tally, call, console),
        }
        self.count = console.bench.ticks;
        self.raised = console.bench.read(0x08).1 & TX_TO != 0;
    }

    /// Something else may have led to what stands there from now on.
    fn forget(&mut self) {
        self.by_counters.clear();
        self.by_status.clear();
    }

    fn show(&mut self, met: bool, kind: &str) {
        if met {
            self.by_counters.push(kind.to_string());
        }
    }

    fn ticked(&mut self, found: Found, value: u32) {
        if value == 0 {
            self.show(found.waits(), VALUE_0);
            return;
        }
        if !found.waits() {
            let cause = match (found.running, found.inside) {
                (false, _) => STOPPED,
                (true, false) => OUTSIDE,
                (true, true) => RETURNED,
            };
            self.show(self.count > 0, cause);
            self.from_a_fire = false;
            return;
        }
        let from_a_fire = self.from_a_fire;
        if self.count < value {
            self.show(true, COUNTED);
            self.show(from_a_fire, AGAIN);
            if self.count + 1 == value && !self.raised {
                self.by_status.push(NOT_YET);
            }
            return;
        }
        self.show(true, FIRED);
        if !self.raised {
            self.by_status.push(RAISED);
            if from_a_fire {
                self.by_status.push(RAISED_AGAIN);
            }
        }
        self.from_a_fire = true;
    }

    fn sent(&mut self, numbers: &[u32], run: bool) {
        let sent = numbers.iter().filter(|number| **number == DONE).count();
        let cleared = if run { SENT_IN_A_RUN } else { SENT };
        self.show(sent > 0 && self.count > 0, cleared);
        self.show(run && sent > 1, RUN_SENT);
        match numbers {
            [number] if *number != DONE && self.count > 0 => {
                self.by_counters.push(refusal_name(*number))
            }
            _ => {}
        }
        if sent > 0 {
            self.from_a_fire = false;
        }
    }

    fn written(&mut self, written: u32, value: u32) {
        let kind = match (value, written) {
            (0, 0) => WRITTEN_ZERO,
            (0, _) => WRITTEN_MASKED,
            _ => WRITTEN_OTHER,
        };
        self.show(self.count > 0, kind);
        if value == 0 {
            self.from_a_fire = false;
        }
    }

    /// Counts what the line shows, if it shows anything.
    fn shown(&mut self, tally: &mut Tally, call: &Call, console: &Console) {
        match call {
            Call::Counters => {
                let counters = console.bench.counters;
                let all = [counters.delivered, counters.lost, counters.sent, self.count];
                for (name, _) in NOT_ZERO.iter().zip(all).filter(|(_, number)| *number > 0) {
                    tally.met(*name);
                }
                self.by_counters.drain(..).for_each(|kind| tally.met(kind));
            }
            Call::Read { offset: 0x08 } => {
                self.by_status.drain(..).for_each(|kind| tally.met(kind));
            }
            _ => {}
        }
    }
}
