//! Counts what bursts are answered with: each number inside, and the situations they were in.

use crate::tally::Tally;

/// The numbers that a burst can give to one of its pairs.
const ANSWERS: [u32; 9] = [0, 3, 4, 5, 6, 7, 8, 11, 16];
/// How often each of them must be met in a whole comparison.
pub const ANSWER_LEAST: usize = 500;

/// What must be met besides: a burst in whose middle the grants run out, the chain ends or faults,
/// or a pair lies outside.
const TURNS: [(u32, u32); 4] = [(0, 8), (0, 3), (0, 7), (16, 0)];

const OVER: &str = "burst 16: over 64 pairs";
const OTHER_LIST: &str = "burst 16: another answer list";
const BOTH: &str = "burst 16: both";
const NO_PAIRS: &str = "burst of no pairs";
const MOST_PAIRS: &str = "burst of 64 pairs";
const NO_CALL: &str = "error for a burst";

/// Whether a kind is a number inside a burst.
pub fn is_answer(kind: &str) -> bool {
    kind.starts_with("burst answer")
}

fn answer_name(answer: u32) -> String {
    format!("burst answer {answer:>2}")
}

fn turn_name((first, then): (u32, u32)) -> String {
    format!("burst with {first} and then {then}")
}

pub fn expect(tally: &mut Tally) {
    for answer in ANSWERS {
        tally.expect(answer_name(answer));
    }
    for turn in TURNS {
        tally.expect(turn_name(turn));
    }
    for kind in [OVER, OTHER_LIST, BOTH, NO_PAIRS, MOST_PAIRS, NO_CALL] {
        tally.expect(kind);
    }
}

/// Counts what a line's answer says beyond its call's number, if the line is a burst.
pub fn count(tally: &mut Tally, line: &[u8], answer: &str) {
    if !line.starts_with(b"burst ") {
        return;
    }
    let mut words = answer.split(' ');
    let call = words.next();
    let mut numbers = words.filter_map(|word| word.parse().ok());
    match (call, numbers.next()) {
        (Some("burst"), Some(0)) => done(tally, &numbers.collect::<Vec<_>>()),
        (Some("burst"), _) => tally.met(refusal(line, numbers.count())),
        _ => tally.met(NO_CALL),
    }
}

fn done(tally: &mut Tally, answers: &[u32]) {
    for answer in answers {
        tally.met(answer_name(*answer));
    }
    for (first, then) in TURNS {
        let found = answers.iter().position(|answer| *answer == first);
        if found.is_some_and(|place| answers[place..].contains(&then)) {
            tally.met(turn_name((first, then)));
        }
    }
    match answers.len() {
        0 => tally.met(NO_PAIRS),
        64 => tally.met(MOST_PAIRS),
        _ => {}
    }
}

/// Why a burst was refused whose answer list has `room` places.
fn refusal(line: &[u8], room: usize) -> &'static str {
    // `burst`, the room and the store stand before the pairs.
    let pairs = (line.split(|byte| *byte == b' ').count() - 3) / 2;
    match (pairs > 64, room != pairs) {
        (true, true) => BOTH,
        (true, false) => OVER,
        _ => OTHER_LIST,
    }
}

#[cfg(test)]
mod tests {
    use super::*;

    #[test]
    fn numbers_inside_are_counted_if_the_call_is_done() {
        let mut tally = Tally::default();
        count(&mut tally, b"burst 3 00 0 9 0 1 0 0", "burst 0 16 4 4");
        assert_eq!(tally.count("burst answer  4"), 2);
        assert_eq!(tally.count("burst answer 16"), 1);
        count(&mut tally, b"burst 1 00", "burst 16 99");
        assert_eq!(tally.count("burst answer 99"), 0);
        assert_eq!(tally.count("burst answer 16"), 1);
        count(&mut tally, b"burst 0 -", "burst 0");
        assert_eq!(tally.count(NO_PAIRS), 1);
        count(&mut tally, b"burst 0 - 0", "error 4");
        assert_eq!(tally.count(NO_CALL), 1);
    }

    #[test]
    fn turns_go_by_the_order_of_the_answers() {
        let mut tally = Tally::default();
        let line = b"burst 3 00 0 9 0 1 0 0";
        count(&mut tally, line, "burst 0 8 5 0");
        assert_eq!(tally.count("burst with 0 and then 8"), 0);
        count(&mut tally, line, "burst 0 0 5 8");
        assert_eq!(tally.count("burst with 0 and then 8"), 1);
    }

    #[test]
    fn refusals_are_told_apart() {
        let mut tally = Tally::default();
        let line = |room: usize, pairs: usize| format!("burst {room} -{}", " 0 0".repeat(pairs));
        let answer = |room: usize| format!("burst 16{}", " 99".repeat(room));
        for (room, pairs, kind) in [(65, 65, OVER), (2, 1, OTHER_LIST), (0, 1, OTHER_LIST)] {
            let before = tally.count(kind);
            count(&mut tally, line(room, pairs).as_bytes(), &answer(room));
            assert_eq!(tally.count(kind), before + 1);
        }
        count(&mut tally, line(64, 65).as_bytes(), &answer(64));
        assert_eq!(tally.count(BOTH), 1);
    }
}
