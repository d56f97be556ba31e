//! Bursts in a history, each held against the claims.

use crate::burst::{Burst, BEFORE, PAIRS_MOST};
use crate::history::History;
use crate::step::Step;
use oracle::random::Random;

impl History<'_> {
    /// A burst of these frames, at times with pairs outside among them.
    pub fn burst_of(&mut self, frames: &[Vec<u8>], random: &mut Random) -> Result<(), String> {
        let free = PAIRS_MOST - frames.len();
        let outside = match random.below(6) {
            0 => free,
            1 | 2 => random.below(free.min(4) + 1),
            _ => 0,
        };
        self.burst(&Burst::new(frames, outside, random))
    }

    /// At times a burst that stands for no receive, though the coming frames are in it: refused, or
    /// without a pair inside.
    pub fn burst_of_none(&mut self, coming: &[Vec<u8>], random: &mut Random) -> Result<(), String> {
        let burst = match random.below(12) {
            0 => Burst::over(coming, random),
            1 => Burst::with_another_list(coming, random),
            2 => Burst::new(&[], random.below(4), random),
            _ => return Ok(()),
        };
        self.burst(&burst)
    }

    fn burst(&mut self, burst: &Burst) -> Result<(), String> {
        let before = self.now.clone();
        let (number, answers) = burst.make(&mut self.now);
        if burst.refused() {
            let untouched = answers.iter().all(|answer| *answer == BEFORE);
            if number != 16 || !untouched || self.now != before {
                return Err(format!(
                    "a refused burst answers {number} or changes something"
                ));
            }
            self.tally.met(match burst.pairs().count() > PAIRS_MOST {
                true => "burst refused: over 64 pairs",
                false => "burst refused: another answer list",
            });
            return Ok(());
        }
        if number != 0 {
            return Err(format!("a burst is answered {number}, not 0"));
        }
        self.pairs_met(burst, &answers)
    }

    /// The answers of a burst that is done, one for each pair.
    fn pairs_met(&mut self, burst: &Burst, answers: &[u32]) -> Result<(), String> {
        let mut met = Vec::new();
        for (frame, answer) in burst.pairs().zip(answers) {
            match (frame, answer) {
                (Some(frame), answer) => {
                    met.push((frame, *answer));
                    self.answers.push(*answer);
                    self.singly.push(Step::Receive(frame.to_vec()));
                }
                (None, 16) => self.tally.met("pair outside the store"),
                (None, _) => return Err(format!("a pair outside is answered {answer}, not 16")),
            }
        }
        self.tally.met("burst");
        match answers.len() {
            0 => self.tally.met("burst of no pairs"),
            PAIRS_MOST => self.tally.met("burst of 64 pairs"),
            _ => {}
        }
        let delivered = answers.iter().position(|answer| *answer == 0);
        if delivered.is_some_and(|place| answers[place..].contains(&8)) {
            self.tally.met("burst in which the grants run out");
        }
        self.ended("frame in a burst", &met)
    }
}
