//! What is claimed of a history, frame by frame and as a whole.

use crate::expected;
use crate::history::History;
use oracle::device::Counters;
use oracle::numbers::{DONE, FRAME_ADDRESS};
use oracle::reason::Reason;
use oracle::verdict;

/// What a comparison of two histories goes by, receive by receive: the grants made before it, and
/// the frames delivered up to it.
#[derive(Clone, Copy)]
pub struct Mark {
    pub grants: usize,
    pub delivered: usize,
}

impl History<'_> {
    /// Holds the frames of one call, which has just ended, and their answers against the claims.
    pub fn ended(&mut self, kind: &str, met: &[(&[u8], u32)]) -> Result<(), String> {
        // "A frame passes if its bytes and the registers at the start bring none of 4, 5 and 6."
        let filter = self.start.bench.filter();
        let mut delivered = Vec::new();
        for (frame, answer) in met {
            let passes = verdict::passing(frame, &filter);
            let turned_away = passes.err().unwrap_or(DONE);
            let all_used = self.delivered == self.grants;
            let wanted = match (turned_away, all_used) {
                (0, true) => 8,
                (0, false) => 0,
                _ => turned_away,
            };
            if *answer != wanted {
                return Err(format!("a {kind} is answered {answer}, not {wanted}"));
            }
            if filter.asks_hash(frame) {
                match turned_away {
                    DONE => self.tally.met(format!("{kind} passing by hash")),
                    FRAME_ADDRESS => self.tally.met(format!("{kind} turned away by hash")),
                    _ => {}
                }
            }
            match (answer, passes) {
                (0, Ok(reason)) => {
                    self.tally.met(format!("{kind} delivered"));
                    self.tally.met(expected::delivered_name(kind, reason));
                    let word = status_word(frame, reason);
                    delivered.push((self.delivered, *frame, word));
                    self.delivered += 1;
                }
                (8, _) => {
                    self.tally.met(format!("{kind} lost"));
                    self.lost += 1;
                }
                _ => self.tally.met(format!("{kind} turned away")),
            }
            self.marks.push(Mark {
                grants: self.grants,
                delivered: self.delivered,
            });
        }
        // "The call of each frame inside ends when the burst ends": all lie there together.
        for (place, frame, word) in delivered {
            self.lies_whole(place, frame, word)?;
        }
        Ok(())
    }

    /// The delivered frame of this number, from 0, lies in the buffer of the grant of that number,
    /// "and that descriptor's packet status holds its length": it is this word, no bit more or less.
    fn lies_whole(&self, place: usize, frame: &[u8], word: u32) -> Result<(), String> {
        let address = self.granted(place);
        let start = self.now.word(address, 4);
        let places = self
            .now
            .bench
            .window
            .places(start, frame.len() as u64)
            .ok_or("a granted buffer is outside the window")?;
        if self.now.memory[places] != *frame {
            return Err(format!("frame {place} is not in its buffer"));
        }
        let found = self.now.word(address, 12);
        if found != word {
            return Err(format!(
                "frame {place} has the packet status {found:08x}, not {word:08x}"
            ));
        }
        Ok(())
    }

    /// The firmware writes "no register but the interrupt ones", so that the filter's are those of the
    /// start, the hash registers too.
    pub fn keeps_the_filter(&self) -> Result<(), String> {
        match self.now.bench.filter() == self.start.bench.filter() {
            true => Ok(()),
            false => Err("a filter register was written".to_string()),
        }
    }

    /// "Each counter equals the events in the history", from those of the start on: a frame answered
    /// 0 or 8 is one, whatever ticks and other steps came between.
    pub fn counts(&mut self) -> Result<(), String> {
        let lost = self.lost as u32;
        let delivered = self.delivered as u32;
        let before = self.start.bench.counters;
        let wanted = Counters {
            delivered: before.delivered + delivered,
            lost: before.lost + lost,
            sent: before.sent,
        };
        let found = self.now.bench.counters;
        if found != wanted {
            return Err(format!("the counters are {found:?}, not {wanted:?}"));
        }
        self.tally.met(expected::COUNTED);
        if delivered > 0 {
            self.tally.met(expected::COUNTED_DELIVERED);
        }
        if lost > 0 {
            self.tally.met(expected::COUNTED_LOST);
        }
        Ok(())
    }

    /// "State, window and answers equal those of single receives": the whole history is made again
    /// with single receives in place of its bursts.
    pub fn equals_single_receives(&mut self) -> Result<(), String> {
        let mut now = self.start.clone();
        let steps = self.singly.iter();
        let answers: Vec<u32> = steps.flat_map(|step| step.make(&mut now)).collect();
        if answers != self.answers {
            return Err("single receives in place of bursts give other answers".to_string());
        }
        if now != self.now {
            return Err("single receives in place of bursts leave something else".to_string());
        }
        self.tally.met(expected::HISTORY_MADE_AGAIN);
        Ok(())
    }
}

/// The packet status of a delivered frame: its length, VALID returned, and the bit of broadcast or
/// group if it was taken for that; "and leaves the others 0".
fn status_word(frame: &[u8], reason: Reason) -> u32 {
    let length = frame.len() as u32;
    match reason {
        Reason::Broadcast => 0x1000_0000 + length,
        Reason::Group => 0x0800_0000 + length,
        Reason::Own | Reason::ReceiveAll => length,
    }
}

#[cfg(test)]
mod tests {
    use super::*;

    #[test]
    fn the_word_of_each_reason() {
        let words = |length| Reason::ALL.map(|reason| status_word(&vec![0; length], reason));
        assert_eq!(words(64), [0x40, 0x1000_0040, 0x0800_0040, 0x40]);
        assert_eq!(words(1_518), [0x5EE, 0x1000_05EE, 0x0800_05EE, 0x5EE]);
    }
}
