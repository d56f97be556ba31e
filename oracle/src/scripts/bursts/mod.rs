//! Burst lines of every kind, for the bench as it stands.

mod pairs;
mod store;

use super::receiving;
use super::writer::Writer;
use crate::hex;

/// The longest line that is a call.
const LINE_MOST: usize = 4_096;
/// The longest answer list of a line.
const ROOM_MOST: usize = 66;
/// `burst`, a room and the spaces around it.
const FRONT: usize = 9;
/// What a pair takes of a line, most of the time.
const PAIR: usize = 12;

impl Writer {
    /// A burst of any number of pairs.
    pub fn burst(&mut self) -> String {
        let count = self.pair_count();
        self.burst_of(count)
    }

    /// A burst of `count` pairs, most often into an answer list of that length; gives the oracle's
    /// answer.
    pub fn burst_of(&mut self, count: usize) -> String {
        let store = store::store(self, count, (LINE_MOST - FRONT - PAIR * count) / 2);
        let pairs = pairs::pairs(&mut self.random, &store, count);
        let mut bytes = hex::write(&store.bytes);
        if self.random.once_in(8) {
            bytes.make_ascii_uppercase();
        }
        let mut words: Vec<String> = pairs
            .iter()
            .flat_map(|pair| [pair.start, pair.length])
            .map(|number| self.decimal(number))
            .collect();
        // With long numbers not all pairs may fit.
        let room_for_words = LINE_MOST - FRONT - bytes.len();
        while words.iter().map(|word| word.len() + 1).sum::<usize>() > room_for_words {
            words.truncate(words.len() - 2);
        }
        let room = self.answer_room(words.len() / 2);
        let words = [vec![bytes], words].concat().join(" ");
        self.say(format!("burst {room} {words}"))
    }

    /// A burst of any number of pairs, and a look at what it may have changed.
    pub fn burst_and_look(&mut self) {
        let count = self.pair_count();
        self.burst_of_and_look(count);
    }

    pub fn burst_of_and_look(&mut self, count: usize) {
        let place = self.console.bench.receiver.place;
        self.burst_of(count);
        self.say("read 8");
        receiving::look_at(self, place);
    }

    /// As many pairs as may be worth trying.
    fn pair_count(&mut self) -> usize {
        match self.random.below(16) {
            0 => 0,
            1 => 1,
            2 => 64,
            3 => self.random.pick(&[63, 64, 65, 65, 66, 66]),
            4 => self.random.between(9, 40),
            _ => self.random.between(2, 8),
        }
    }

    /// The length of an answer list for `count` pairs; too many pairs have another one more often,
    /// since both are refused.
    fn answer_room(&mut self, count: usize) -> usize {
        let choices = if count > 64 { 6 } else { 24 };
        match self.random.below(choices) {
            0 => (count + 1).min(ROOM_MOST),
            1 => count.saturating_sub(1),
            2 => self.random.below(ROOM_MOST + 1),
            _ => count,
        }
    }

    /// A number in decimal, at times with zeros in front.
    fn decimal(&mut self, number: u64) -> String {
        match self.random.below(32) {
            0 => format!("{number:08}"),
            1 => format!("{number:04}"),
            _ => number.to_string(),
        }
    }
}

#[cfg(test)]
mod tests {
    use super::*;

    /// A writer with a bench that has a window.
    fn writer() -> Writer {
        let mut writer = Writer::new(11);
        writer.new_bench(4_096);
        writer
    }

    #[test]
    fn every_burst_is_a_call() {
        let mut writer = writer();
        for count in (0..=66).chain(0..=66) {
            let answer = writer.burst_of(count);
            assert!(answer.starts_with("burst"), "{answer}");
        }
    }

    #[test]
    fn stores_keep_to_their_size_and_hold_their_frames() {
        let mut writer = writer();
        for most in 0..2_000 {
            let store = store::store(&mut writer, 20, most);
            assert!(store.bytes.len() <= most);
            for frame in &store.frames {
                assert!(frame.start + frame.length <= store.bytes.len() as u64);
            }
        }
    }
}
