//! What a whole comparison must have met, and how often.

use oracle::capture;
use oracle::films::{
    field_names, ExportSlip, ImportSlip, DAMAGES, FILLINGS, RECORD_FAULTS, SHAPES,
};
use oracle::tally::Tally;

/// How often each number of each call must be met, and each wrong reading caught.
const LEAST: usize = 100;
/// How often what was exported must be imported again, and the other way round.
const AGAIN_LEAST: usize = 500;
/// How often a refusal must be given where a certain later one would be right too.
const ORDER_LEAST: usize = 30;
const FEW: usize = 10;

pub const IMPORTED_AGAIN: &str = "exported, and imported to the same frames and times";
pub const EXPORTED_AGAIN: &str = "imported, and exported byte for byte";

/// What is lent and stays.
pub const EXPORT_REST: &str = "export: room left over";
pub const EVENTS_REST: &str = "import: room for events left over";
pub const TIMES_REST: &str = "import: room for times left over";

const SHORT_EVENTS: &str = "import 37: the room for events alone";
const SHORT_TIMES: &str = "import 37: the room for times alone";
const SHORT_BOTH: &str = "import 37: both rooms";

/// The numbers that each call can give.
const CALLS: [(&str, &[u32]); 2] = [
    ("export", &[0, 4, 5, 29, 30]),
    ("import", &[0, 31, 32, 33, 34, 35, 36, 37]),
];

/// The refusals of which a later one would be right too.
const ORDERS: [(&str, u32, &[u32]); 9] = [
    ("export", 29, &[4, 5, 30]),
    ("export", 4, &[5, 30]),
    ("export", 5, &[4, 30]),
    ("import", 31, &[32, 33]),
    ("import", 32, &[33, 34, 35, 36, 37]),
    ("import", 33, &[34, 35, 36, 37]),
    ("import", 34, &[35, 36, 37]),
    ("import", 35, &[36, 37]),
    ("import", 36, &[35, 37]),
];

/// Other kinds of capture that are made by turns.
const KINDS: [&str; 12] = [
    "header cut, 0 wrong fields",
    "header cut, 1 wrong fields",
    "two wrong fields",
    "an unequal record before a cut one",
    "a cut record before an unequal one",
    "a record both cut and unequal",
    "good elsewhere, with nanoseconds",
    "good elsewhere, with the highest byte first",
    "good elsewhere, with nanoseconds, the highest byte first",
    "damage",
    "random bytes",
    "random bytes behind a header",
];

pub fn call_name(call: &str, number: u32) -> String {
    format!("{call} {number:>2}")
}

pub fn other_found_name(call: &str) -> String {
    format!("{call}: found list of another length")
}

fn order_name(call: &str, given: u32, later: u32) -> String {
    format!("{call}: {given}, where {later} would be right too")
}

pub fn filling_name(filling: &str) -> String {
    format!("list: {filling}")
}

pub fn damage_name(damage: &str) -> String {
    format!("list damage: {damage}")
}

pub fn kind_name(kind: &str) -> String {
    format!("capture: {kind}")
}

pub fn export_slip_name(slip: ExportSlip) -> String {
    format!(
        "export would be another by: {}",
        words(&format!("{slip:?}"))
    )
}

pub fn import_slip_name(slip: ImportSlip) -> String {
    format!(
        "import would be another by: {}",
        words(&format!("{slip:?}"))
    )
}

/// A name like `VersionsIn8Bits` in words: one starts with each capital letter and each number.
fn words(name: &str) -> String {
    let mut words = String::new();
    for letter in name.chars() {
        let behind_digit = words.ends_with(|last: char| last.is_ascii_digit());
        let starts = letter.is_uppercase() || letter.is_ascii_digit() && !behind_digit;
        if starts && !words.is_empty() {
            words.push(' ');
        }
        words.push(letter.to_ascii_lowercase());
    }
    words
}

/// Counts each number that would be right behind the first, which is given.
pub fn count_orders(tally: &mut Tally, call: &str, refusals: &[u32]) {
    let Some((given, later)) = refusals.split_first() else {
        return;
    };
    let mut later = later.to_vec();
    later.sort();
    later.dedup();
    for number in later.into_iter().filter(|number| number != given) {
        tally.met(order_name(call, *given, number));
    }
}

/// Which room of an import is too short.
pub fn short_name(file: &[u8], events: usize, times: usize) -> Option<&'static str> {
    let records = capture::records(file).ok()?;
    let needed: usize = records.iter().map(|record| 9 + record.bytes.len()).sum();
    match (needed > events, 8 * records.len() > times) {
        (true, false) => Some(SHORT_EVENTS),
        (false, true) => Some(SHORT_TIMES),
        (true, true) => Some(SHORT_BOTH),
        (false, false) => None,
    }
}

pub fn expect(tally: &mut Tally) {
    for kind in [
        IMPORTED_AGAIN,
        EXPORTED_AGAIN,
        EXPORT_REST,
        EVENTS_REST,
        TIMES_REST,
        SHORT_EVENTS,
        SHORT_TIMES,
        SHORT_BOTH,
    ] {
        tally.expect(kind);
    }
    for (call, numbers) in CALLS {
        tally.expect(other_found_name(call));
        for number in numbers {
            tally.expect(call_name(call, *number));
        }
    }
    for (call, given, later) in ORDERS {
        for number in later {
            tally.expect(order_name(call, given, *number));
        }
    }
    for filling in FILLINGS {
        tally.expect(filling_name(filling));
    }
    for damage in DAMAGES {
        tally.expect(damage_name(damage));
    }
    for kind in KINDS {
        tally.expect(kind_name(kind));
    }
    for shape in SHAPES {
        tally.expect(kind_name(&format!("good {shape:?}")));
    }
    for name in field_names() {
        tally.expect(kind_name(&format!("wrong field: {name}")));
    }
    for fault in RECORD_FAULTS {
        tally.expect(kind_name(&format!("record {fault:?}")));
    }
    for slip in ExportSlip::ALL {
        tally.expect(export_slip_name(slip));
    }
    for slip in ImportSlip::ALL {
        tally.expect(import_slip_name(slip));
    }
}

/// How often a kind must be met in a whole comparison.
pub fn least(kind: &str) -> usize {
    if [IMPORTED_AGAIN, EXPORTED_AGAIN].contains(&kind) {
        AGAIN_LEAST
    } else if kind.contains(", where ") {
        ORDER_LEAST
    } else if ["capture: ", "list"]
        .iter()
        .any(|front| kind.starts_with(front))
    {
        FEW
    } else {
        LEAST
    }
}

#[cfg(test)]
mod tests {
    use super::*;

    #[test]
    fn names_in_words() {
        assert_eq!(words("RoomBeforeForm"), "room before form");
        assert_eq!(words("LinkTypeIn16Bits"), "link type in 16 bits");
    }
}
