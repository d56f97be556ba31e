//! What the oracle makes of a case.

use crate::case::{Case, Lent};
use crate::found;
use oracle::device::{Bench, Counters, Pair};
use oracle::trace::{whole_events, Answer, Event};

/// What was left, and the numbers found.
pub struct Made {
    pub lent: Lent,
    pub numbers: Vec<u64>,
    /// The counters before each event and behind the last, and its answer.
    pub steps: Vec<(Counters, Event, u32)>,
    /// The counters behind the events, and at the end.
    pub played: Counters,
    pub end: Counters,
    /// The count of ticks behind the events, and the time-out.
    pub count: u32,
    pub time_out: u32,
    /// The answers of the sends of the step run, or of the frames of the burst.
    pub answers: Vec<u32>,
}

/// A bench whose counters are set, and its events played.
struct Played {
    bench: Bench,
    lent: Lent,
    steps: Vec<(Counters, Event, u32)>,
}

fn played(case: &Case) -> Played {
    // A window that is not allowed gives the reset bench over no window.
    let (mut bench, _) = Bench::new(case.base, case.window.into());
    bench.counters = case.counters;
    bench.ticks = case.count;
    let mut lent = case.lent.clone();
    let mut steps = Vec::new();
    for event in whole_events(&case.events) {
        let before = bench.counters;
        let Answer { number, .. } = event.call(&mut bench, &mut lent.memory, &mut lent.output);
        // "Those that do not fit are left out."
        if let Some(answer) = lent.answers.get_mut(steps.len()) {
            *answer = number;
        }
        steps.push((before, event, number));
    }
    Played { bench, lent, steps }
}

fn four(bench: &Bench) -> [u64; 4] {
    let Counters {
        delivered,
        lost,
        sent,
    } = bench.counters;
    [delivered, lost, sent, bench.ticks].map(u64::from)
}

fn status(bench: &Bench) -> u64 {
    bench.read(0x08).1.into()
}

/// One step run and one tick behind the events.
pub fn run(case: &Case) -> Made {
    let Played {
        mut bench,
        mut lent,
        steps,
    } = played(case);
    let (count, time_out) = (bench.ticks, bench.read(0x48).1);
    let before = bench.counters;
    let run = bench.run(&mut lent.memory, &mut lent.output, case.allowance.into());
    let tick = bench.tick(&lent.memory);
    let mut numbers = vec![run.answer.into(), run.steps, run.bytes as u64, tick.into()];
    numbers.extend(four(&bench));
    numbers.push(status(&bench));
    assert_eq!(numbers.len(), found::RUN.len());
    let mut answers = vec![0; run.steps as usize];
    if let Some(last) = answers.last_mut() {
        *last = run.answer;
    }
    Made {
        lent,
        numbers,
        steps,
        played: before,
        end: bench.counters,
        count,
        time_out,
        answers,
    }
}

/// One burst behind the events. A case has as many starts as lengths.
pub fn burst(case: &Case) -> Made {
    let Played {
        mut bench,
        mut lent,
        steps,
    } = played(case);
    let (count, time_out) = (bench.ticks, bench.read(0x48).1);
    let before = bench.counters;
    let pairs: Vec<Pair> = case
        .starts
        .iter()
        .zip(&case.lengths)
        .map(|(start, length)| Pair {
            start: (*start).into(),
            length: (*length).into(),
        })
        .collect();
    let number = bench.burst(&mut lent.memory, &case.store, &pairs, &mut lent.list);
    let mut numbers = vec![number.into()];
    numbers.extend(four(&bench));
    numbers.push(status(&bench));
    assert_eq!(numbers.len(), found::BURST.len());
    let answers = match number {
        0 => lent.list.clone(),
        _ => Vec::new(),
    };
    Made {
        lent,
        numbers,
        steps,
        played: before,
        end: bench.counters,
        count,
        time_out,
        answers,
    }
}
