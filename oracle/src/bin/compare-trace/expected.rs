//! What a whole comparison must have met, and how often.

use oracle::taken::Taken;
use oracle::tally::Tally;
use oracle::tapes::{fault_names, DAMAGES, FEATURES, SHAPES};
use oracle::ungranted::Ungranted;

/// How often each number, each answer of a replay and each kind of delivery must be met in a whole
/// comparison.
const LEAST: usize = 100;
/// And each reason in a first, middle and last block.
const PLACE_LEAST: usize = 30;
const FEW: usize = 10;

/// What is lent and stays; refusals of which a later one would be right too; both ways round.
pub const LONGER_ROOM: &str = "read: room left over";
pub const LONGER_LIST: &str = "replay: answer list left over";
pub const NO_ROOM: &str = "read: bad block, and no room at all";
pub const NO_ANSWERS: &str = "replay: bad block, and no answer list at all";
pub const ROOM_BEFORE_ANSWERS: &str = "replay: 23, and too few answers";
pub const WRITTEN_AGAIN: &str = "read, and written again";
pub const READ_BACK: &str = "written, and read back";

/// What a replay leaves that is not 0.
pub const LEFT: [&str; 4] = [
    "replay leaves: TXTOR",
    "replay leaves: frames delivered",
    "replay leaves: frames lost",
    "replay leaves: frames sent",
];

/// Lists of numbers found of another length.
pub const SHORTER: &str = "replay: fewer numbers found than there are";
pub const LONGER: &str = "replay: more numbers found than there are";

const SINGLE_KINDS: [&str; 9] = [
    SHORTER,
    LONGER,
    LONGER_ROOM,
    LONGER_LIST,
    NO_ROOM,
    NO_ANSWERS,
    ROOM_BEFORE_ANSWERS,
    WRITTEN_AGAIN,
    READ_BACK,
];

pub fn order_name(given: u32, later: u32) -> String {
    format!("write: {given}, where {later} would be right too")
}

pub fn feature_name(feature: &str) -> String {
    format!("good trace: {feature}")
}

pub fn number_name(number: u32) -> String {
    format!("number {number:>2}")
}

pub fn call_name(call: &str, number: u32) -> String {
    format!("{call} {number}")
}

pub fn answer_name(number: u32) -> String {
    format!("replay answer {number:>2}")
}

pub fn ungranted_name(kind: Ungranted) -> String {
    format!("replay answer {kind}")
}

pub fn delivered_name(taken: Taken) -> String {
    format!("replay delivers: {taken}")
}

pub fn left_name(taken: Taken) -> String {
    format!("replay leaves the status word: {taken}")
}

pub fn damage_name(damage: &str) -> String {
    format!("list damage: {damage}")
}

pub fn kind_name(kind: &str) -> String {
    format!("trace: {kind}")
}

/// Where the bad block of a reason stands, if it is a block's.
pub fn place_name(number: u32, block: u64, blocks: usize) -> Option<String> {
    if !(17..=22).contains(&number) {
        return None;
    }
    let last = blocks.saturating_sub(1) as u64;
    let place = match block {
        _ if last == 0 => "only",
        0 => "first",
        _ if block == last => "last",
        _ => "middle",
    };
    Some(format!("read {number} in the {place} block"))
}

/// The numbers that each call can give.
const CALLS: [(&str, &[u32]); 3] = [
    ("read", &[0, 17, 18, 19, 20, 21, 22, 23]),
    ("replay", &[0, 17, 18, 19, 20, 21, 22, 23, 24]),
    ("write", &[0, 25, 26, 28]),
];
/// What the events of a replay can answer.
const ANSWERS: [u32; 14] = [0, 2, 3, 4, 5, 6, 7, 8, 9, 11, 12, 13, 14, 15];

/// Of the refusals of a writing the earlier is given; those by 27 take 33 million bytes.
const WRITE_ORDERS: [(u32, u32); 6] = [(25, 26), (25, 27), (25, 28), (26, 27), (26, 28), (27, 28)];

/// The places where a reason can stand: a short block is the last, a fill that of the last.
const PLACES: [(u32, &[&str]); 6] = [
    (17, &["only", "last"]),
    (18, &["only", "first", "middle", "last"]),
    (19, &["only", "first", "middle", "last"]),
    (20, &["only", "first", "middle", "last"]),
    (21, &["only", "last"]),
    (22, &["only", "first", "middle", "last"]),
];

/// Two faults of which the one in the earlier block is told, though its test is the later one.
const ORDERS: [&str; 8] = [
    "Event in an earlier block than Check",
    "Event in an earlier block than Fill",
    "Event in an earlier block than Length",
    "Event in an earlier block than Number",
    "Event in an earlier block than Used",
    "Check in an earlier block than Event",
    "Check in an earlier block than Number",
    "Used in an earlier block than Length",
];

/// Other kinds of trace that are made by turns.
const KINDS: [&str; 6] = [
    "damage as it is",
    "damage with right checks",
    "damage with right checks and numbers",
    "frame length changed",
    "two faults in any blocks",
    "two faults in one block",
];

pub fn expect(tally: &mut Tally) {
    for number in (17..=28).chain([0]) {
        tally.expect(number_name(number));
    }
    for (call, numbers) in CALLS {
        for number in numbers {
            tally.expect(call_name(call, *number));
        }
    }
    for answer in ANSWERS {
        tally.expect(answer_name(answer));
    }
    for kind in Ungranted::all() {
        tally.expect(ungranted_name(kind));
    }
    for taken in Taken::ALL {
        tally.expect(delivered_name(taken));
        tally.expect(left_name(taken));
    }
    for (number, places) in PLACES {
        for place in places {
            tally.expect(format!("read {number} in the {place} block"));
        }
    }
    for damage in DAMAGES {
        tally.expect(damage_name(damage));
    }
    for kind in ORDERS {
        tally.expect(kind_name(kind));
    }
    for kind in KINDS {
        tally.expect(kind_name(kind));
    }
    for (given, later) in WRITE_ORDERS {
        tally.expect(order_name(given, later));
    }
    for kind in SINGLE_KINDS.into_iter().chain(LEFT) {
        tally.expect(kind);
    }
    for name in fault_names() {
        tally.expect(kind_name(&format!("one fault: {name}")));
    }
    for feature in FEATURES {
        tally.expect(feature_name(feature));
    }
    for shape in SHAPES {
        tally.expect(kind_name(&format!("good {shape:?}")));
    }
}

/// What is met less often, by the front of its name.
const FEWER: [&str; 7] = [
    "trace: good ",
    "list damage",
    "good trace",
    "write: ",
    "read: bad",
    "replay: bad",
    "replay: 23",
];

/// How often a kind must be met in a whole comparison.
pub fn least(kind: &str) -> usize {
    // What takes 33 million bytes, or a frame longer than any of a day.
    let large = kind.contains("27") || kind.ends_with("65,535 bytes");
    if large {
        1
    } else if FEWER.iter().any(|front| kind.starts_with(front)) {
        FEW
    } else if kind.starts_with("trace: ") {
        1
    } else if kind.starts_with("read ") && kind.ends_with(" block") {
        PLACE_LEAST
    } else {
        LEAST
    }
}
