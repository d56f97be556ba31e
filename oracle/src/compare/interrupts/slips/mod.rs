//! Counts, for each wrong reading, the calls that would be answered otherwise by it. A model that
//! makes one slip goes beside the right one; where its answer is another that counts once, and it
//! goes on from where the right one stands.

mod access;
mod answer;
mod model;
mod slip;
#[cfg(test)]
mod tests;

use crate::console::Interrupts;
use crate::tally::Tally;
use model::Model;
use slip::Slip;

/// How often each reading must have been told from the right one in a whole comparison.
const LEAST: usize = 100;

fn name(slip: Slip) -> String {
    format!("interrupts, answer that tells: {slip}")
}

pub fn names() -> impl Iterator<Item = (String, usize)> {
    Slip::ALL.iter().map(|slip| (name(*slip), LEAST))
}

pub struct Watch {
    right: Model,
    wrong: Vec<Model>,
}

impl Default for Watch {
    fn default() -> Watch {
        let wrong = Slip::ALL.iter().map(|slip| Model::with(Some(*slip)));
        Watch {
            right: Model::with(None),
            wrong: wrong.collect(),
        }
    }
}

impl Watch {
    /// A new bench was asked for, and answered so.
    pub fn renewed(&mut self, number: u32) {
        let models = std::iter::once(&mut self.right).chain(&mut self.wrong);
        models.for_each(|model| model.renew(number));
    }

    /// Counts the readings that a call tells from the right one. The console answered it so while
    /// the bench's line stood so.
    pub fn count(&mut self, tally: &mut Tally, call: Interrupts, line: bool, answer: &str) {
        let right = self.right.make(call, line);
        assert_eq!(right.line(), answer, "the oracle's two models differ");
        for model in &mut self.wrong {
            if model.make(call, line) != right {
                if let Some(slip) = model.slip {
                    tally.met(name(slip));
                }
                model.follow(&self.right);
            }
        }
    }
}
