//! Holds the claims about histories against the oracle's own device, on random histories: a second
//! opinion on the claims themselves.

mod arrivals;
mod burst;
mod bursts;
mod claims;
mod expected;
mod history;
mod sequence;
mod start;
mod step;
mod steps;
mod without_polling;

use arrivals::Arrival;
use claims::Mark;
use history::History;
use oracle::random::Random;
use oracle::runs;
use oracle::tally::Tally;
use start::Start;
use std::process::ExitCode;

/// Pairs of histories with one sequence of frames.
const PAIRS: u64 = 2_500;

fn main() -> ExitCode {
    let mut tally = Tally::default();
    expected::expect(&mut tally);
    for seed in 0..PAIRS {
        if let Err(fault) = pair(seed, &mut tally) {
            println!("histories: pair {seed}: {fault}");
            return ExitCode::FAILURE;
        }
        if let Err(fault) = without_polling::hold(seed, &mut tally) {
            println!("histories: start {seed} without polling: {fault}");
            return ExitCode::FAILURE;
        }
    }
    let said = format!("{} histories, every claim held", 2 * PAIRS);
    runs::end("histories", &tally, expected::least, &said)
}

/// Two histories from one start with one sequence of frames.
fn pair(seed: u64, tally: &mut Tally) -> Result<(), String> {
    let mut random = Random::new(seed);
    let start = Start::new(&mut random)?;
    tally.met(expected::start_name(start.bench.filter().mode()));
    let frames = sequence::sequence(&start, &mut random);
    let mut arrivals = arrivals::cut(frames.len(), &mut random);
    let first = single(&start, &frames, &arrivals, &[], &mut random, tally)?;
    // Half of the second histories keep up with the first one's grants, and half meet the frames by
    // other calls.
    let pace: &[Mark] = if random.once_in(2) { &first } else { &[] };
    if random.once_in(2) {
        arrivals = arrivals::cut(frames.len(), &mut random);
    }
    let second = single(&start, &frames, &arrivals, pace, &mut random, tally)?;
    compare(&first, &second, tally)
}

/// One history. Before each call it makes at least as many grants as `pace` had at its last frame.
fn single(
    start: &Start,
    frames: &[Vec<u8>],
    arrivals: &[Arrival],
    pace: &[Mark],
    random: &mut Random,
    tally: &mut Tally,
) -> Result<Vec<Mark>, String> {
    let mut history = History::new(start.clone(), tally);
    let eagerness = random.below(10);
    let mut left = frames;
    for arrival in arrivals {
        let (coming, later) = left.split_at(arrival.frames());
        history.other_steps(random, eagerness);
        history.burst_of_none(coming, random)?;
        let last = frames.len() - later.len() - 1;
        let wanted = pace.get(last).map_or(0, |mark| mark.grants);
        for _ in history.grants..wanted {
            history.grant();
        }
        match arrival {
            Arrival::Single => history.receive(&coming[0])?,
            Arrival::Burst(frames) => {
                // A ring's grants, or some of them, for many frames at once.
                if random.once_in(2) {
                    let more = random.below(frames.min(&start.ring.len()) + 1);
                    (0..more).for_each(|_| history.grant());
                }
                history.burst_of(coming, random)?;
            }
        }
        left = later;
    }
    history.other_steps(random, eagerness);
    history.keeps_the_filter()?;
    history.counts()?;
    history.equals_single_receives()?;
    Ok(history.marks)
}

/// A history that never had fewer grants before a receive never delivered fewer frames.
fn compare(first: &[Mark], second: &[Mark], tally: &mut Tally) -> Result<(), String> {
    let pairs = || first.iter().zip(second);
    if first.len() != second.len() {
        return Err("one sequence of frames, but not as many receives".to_string());
    }
    if pairs().any(|(first, second)| second.grants < first.grants) {
        tally.met("pair not to be compared");
        return Ok(());
    }
    if pairs().any(|(first, second)| second.delivered < first.delivered) {
        return Err("never fewer grants, but fewer frames delivered".to_string());
    }
    tally.met(
        match pairs().any(|(first, second)| second.delivered > first.delivered) {
            true => "pair with never fewer grants: more delivered",
            false => "pair with never fewer grants: as many delivered",
        },
    );
    Ok(())
}
