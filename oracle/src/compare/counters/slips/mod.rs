//! Counts, for each wrong reading, the answers that would be others by it. A model that makes one slip
//! goes beside the right one; where its answer is another that counts once, and it goes on from where
//! the right one stands.

mod model;
mod slip;
#[cfg(test)]
mod tests;

use super::happened::Happened;
use crate::console::{Call, Console};
use crate::tally::Tally;
use model::Model;
use slip::Slip;

/// How often each reading must have been told from the right one in a whole comparison.
const LEAST: usize = 100;

fn name(slip: Slip) -> String {
    format!("counters, answer that tells: {slip}")
}

pub fn names() -> impl Iterator<Item = (String, usize)> {
    Slip::ALL.iter().map(|slip| (name(*slip), LEAST))
}

pub struct Watch {
    right: Model,
    wrong: Vec<Model>,
}

impl Default for Watch {
    fn default() -> Watch {
        let wrong = Slip::ALL.iter().map(|slip| Model::with(Some(*slip)));
        Watch {
            right: Model::with(None),
            wrong: wrong.collect(),
        }
    }
}

impl Watch {
    /// Counts the readings that a line tells from the right one. The console has taken it and
    /// answered so.
    pub fn count(
        &mut self,
        tally: &mut Tally,
        call: &Call,
        happened: &Happened,
        answer: &str,
        console: &Console,
    ) {
        let right = self.right.take(call, happened, console);
        if let Some(right) = &right {
            assert_eq!(right, answer, "the oracle's two models differ");
        }
        for model in &mut self.wrong {
            if model.take(call, happened, console) != right {
                if let Some(slip) = model.slip {
                    tally.met(name(slip));
                }
                model.follow(&self.right);
            }
        }
    }
}
