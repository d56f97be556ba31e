//! That the claims need polling: where it is missing, a loss stops receiving, and a grant that is made
//! behind it comes too late for every later frame.

use crate::history::History;
use crate::start::{Start, NOT_SOUND, NO_POLLING};
use oracle::check;
use oracle::numbers::{DONE, NOT_RUNNING};
use oracle::random::Random;
use oracle::tally::Tally;

/// Starts without polling at the first place, or in one next word of the ring.
pub const AT_THE_START: &str = "no polling at the start: 3 behind a loss and a grant";
pub const IN_ONE_WORD: &str = "no polling in one next word: 3 behind a loss and a grant";

/// Other steps than frames are no grants here.
const NO_GRANTS: usize = 0;

/// Makes one list from a start of the claims, and one by the same choices from that start with one
/// polling bit missing.
pub fn hold(seed: u64, tally: &mut Tally) -> Result<(), String> {
    let random = &mut Random::new(!seed);
    let start = Start::new(random)?;
    let chosen = random.below(start.ring.len());
    for (kind, lacking, fault, deliveries) in [
        (AT_THE_START, start.without_polling(), NO_POLLING, 0),
        (
            IN_ONE_WORD,
            start.without_polling_in(chosen),
            NOT_SOUND,
            chosen + 1,
        ),
    ] {
        if lacking.fault() != Some(fault) {
            return Err(format!("{kind}: that is not what the start lacks"));
        }
        let choices = random.draw();
        let with = last(&start, deliveries, &mut Random::new(choices))?;
        let without = last(&lacking, deliveries, &mut Random::new(choices))?;
        if (with, without) != ((DONE, true), (NOT_RUNNING, false)) {
            return Err(format!(
                "{kind}: with polling {with:?}, without {without:?}"
            ));
        }
        tally.met(kind);
    }
    Ok(())
}

/// So many frames delivered, then one that is lost, a grant, and a frame for it: what that is
/// answered, and whether the claim about it holds. All before is as claimed either way.
fn last(start: &Start, deliveries: usize, random: &mut Random) -> Result<(u32, bool), String> {
    // To everybody, so that it passes every filter.
    let frame = check::closed(&[0xFF; 60]);
    let mut tally = Tally::default();
    let mut history = History::new(start.clone(), &mut tally);
    for _ in 0..deliveries {
        history.grant();
        history.receive(&frame)?;
    }
    history.other_steps(random, NO_GRANTS);
    history.receive(&frame)?;
    history.other_steps(random, NO_GRANTS);
    history.grant();
    history.other_steps(random, NO_GRANTS);
    let held = history.receive(&frame).is_ok();
    let answer = history.answers.last().copied();
    Ok((answer.expect("a frame is answered"), held))
}
