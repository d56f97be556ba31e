//! One history: calls that bring frames, with the firmware's own steps between them.

use crate::claims::Mark;
use crate::start::Start;
use crate::step::Step;
use oracle::random::Random;
use oracle::tally::Tally;

pub struct History<'run> {
    pub start: Start,
    pub now: Start,
    pub grants: usize,
    pub delivered: usize,
    pub lost: usize,
    pub marks: Vec<Mark>,
    /// The history so far with single receives in place of bursts, and all that was answered.
    pub singly: Vec<Step>,
    pub answers: Vec<u32>,
    pub tally: &'run mut Tally,
}

impl History<'_> {
    pub fn new(start: Start, tally: &mut Tally) -> History<'_> {
        History {
            now: start.clone(),
            start,
            grants: 0,
            delivered: 0,
            lost: 0,
            marks: Vec::new(),
            singly: Vec::new(),
            answers: Vec::new(),
            tally,
        }
    }

    /// Makes a step; gives its first answer, 0 if it has none.
    pub fn make(&mut self, step: Step) -> u32 {
        let answers = step.make(&mut self.now);
        self.answers.extend(&answers);
        self.singly.push(step);
        answers.first().copied().unwrap_or_default()
    }

    /// The descriptor of the nth grant, from 0.
    pub fn granted(&self, place: usize) -> u32 {
        self.now.ring[place % self.now.ring.len()]
    }

    /// Grants the next descriptor in ring order, unless it is still granted.
    pub fn grant(&mut self) {
        let address = self.granted(self.grants);
        match self.make(Step::Grant(address)) {
            0 => {
                self.grants += 1;
                self.tally.met("grant");
            }
            _ => self.tally.met("grant refused in ring order"),
        }
    }

    /// A single receive.
    pub fn receive(&mut self, frame: &[u8]) -> Result<(), String> {
        let answer = self.make(Step::Receive(frame.to_vec()));
        self.ended("frame", &[(frame, answer)])
    }

    /// As many random steps other than frames as the firmware may like.
    pub fn other_steps(&mut self, random: &mut Random, eagerness: usize) {
        for _ in 0..random.below(6) {
            if random.below(10) < eagerness {
                self.grant();
            } else {
                self.other_step(random);
            }
        }
    }
}
