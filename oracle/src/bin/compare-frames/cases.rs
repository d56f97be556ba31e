//! Random and boundary frames for the comparison.

use crate::compare::Comparison;
use crate::{expected, filters};
use oracle::address::{Filter, BROADCAST};
use oracle::frames::{self, Destination, Ending};
use oracle::random::Random;
use oracle::taken::Taken;
use oracle::tally::Tally;
use oracle::{check, telling, verdict};

/// How many random frames are compared.
const FRAMES: usize = 60_000;
/// One frame in this many also goes through the verdict program.
const SHARE: usize = 20;
/// One frame in this many of those arrives in two pieces.
const PIECES: usize = 20;

/// Random and damaged frames: the C functions on all, the verdict program on a share.
pub fn random_frames(comparison: &mut Comparison, random: &mut Random) -> Result<(), String> {
    for place in 0..FRAMES {
        let run_program = place % SHARE == 0;
        let station = if run_program {
            verdict::STATION
        } else {
            random_station(random)
        };
        // Half of all frames are whole, or the later checks would seldom be reached.
        let ending = match random.below(2) {
            0 => Ending::Right,
            _ => random.pick(&Ending::ALL),
        };
        // And many are to a group, of which the hash may be asked, or to what the other lines of the
        // address rule take.
        let destination = match random.below(8) {
            0 | 1 => Destination::Group,
            2 => Destination::Own,
            3 => Destination::Broadcast,
            _ => random.pick(&Destination::ALL),
        };
        let length = frames::length(random);
        let message = frames::message(destination.make(station, random), length, random);
        let frame = ending.make(&message, random);
        comparison.tally.met(format!("destination {destination:?}"));
        comparison.tally.met(format!("check sequence {ending:?}"));
        functions(comparison, &frame, station, random)?;
        if run_program {
            let cut = match random.below(PIECES) {
                0 if !frame.is_empty() => Some(random.below(frame.len())),
                _ => None,
            };
            comparison.verdict(&frame, cut)?;
        }
    }
    Ok(())
}

/// Single addresses most often, now and then the verdict program's; and those that are never taken as
/// the station's own, group addresses and the broadcast one.
fn random_station(random: &mut Random) -> [u8; 6] {
    let mut station = [0; 6];
    station.copy_from_slice(&random.bytes(6));
    match random.below(8) {
        0 => return BROADCAST,
        1 => station[0] |= 1,
        2 | 3 => return verdict::STATION,
        _ => station[0] &= 0xFE,
    }
    station
}

/// Both C functions on one frame, the address rule with one set of filter registers.
fn functions(
    comparison: &mut Comparison,
    frame: &[u8],
    station: [u8; 6],
    random: &mut Random,
) -> Result<(), String> {
    comparison.frame_check(frame, check::right(frame).into())?;
    let filter = filters::random_filter(frame, station, random, &mut comparison.tally);
    count(&mut comparison.tally, frame, &filter);
    comparison.address_rule(frame, &filter, filter.answer(frame))
}

/// What the address rule says of a random frame. The vectors are left out: they are the same in every
/// run, and would hide it if the random frames missed a kind.
fn count(tally: &mut Tally, frame: &[u8], filter: &Filter) {
    tally.met(expected::answer_name(filter.answer(frame)));
    if let Some(taken) = Taken::of(frame, filter) {
        tally.met(expected::taken_name(taken));
    }
    for case in telling::cases(frame, filter) {
        tally.met(expected::case_name(case));
    }
    if filter.asks_hash(frame) {
        tally.met(expected::by_hash_name(filter.accepts(frame)));
    }
}

/// The verdict program at every boundary length, with each kind of destination and check sequence.
pub fn boundary_inputs(comparison: &mut Comparison, random: &mut Random) -> Result<(), String> {
    let lengths = [
        4, 5, 9, 10, 62, 63, 64, 65, 1_517, 1_518, 1_519, 1_520, 2_000, 100_000,
    ];
    comparison.verdict(&[], None)?;
    for length in 1..4 {
        comparison.verdict(&random.bytes(length), None)?;
    }
    for length in lengths {
        for destination in Destination::ALL {
            let address = destination.make(verdict::STATION, random);
            let message = frames::message(address, length, random);
            comparison.verdict(&check::closed(&message), None)?;
        }
    }
    for ending in Ending::ALL {
        let message = frames::message(verdict::STATION, 64, random);
        comparison.verdict(&ending.make(&message, random), None)?;
    }
    Ok(())
}
