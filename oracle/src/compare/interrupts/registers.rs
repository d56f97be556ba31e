//! Counts the accesses to each register of both controllers, and to what is not there.

use crate::console::Interrupts;
use crate::tally::Tally;
use crate::vic::registers::Register;

/// How often each must be read, and written, in a whole comparison.
const LEAST: usize = 100;

const ACCESSES: [&str; 2] = ["read", "written"];

/// Where an offset can be at which there is no register.
const ODD: &str = "no multiple of 4";
const FAR: &str = "past 23Ch";
const GAP: &str = "between registers";
const NOWHERE: [&str; 3] = [ODD, FAR, GAP];

fn name(controller: usize, place: &str, access: &str) -> String {
    format!("VIC{controller}_{place} {access}")
}

fn nowhere_name(controller: usize, place: &str, access: &str) -> String {
    format!("VIC{controller} {place}, {access}")
}

pub fn names() -> impl Iterator<Item = (String, usize)> {
    let both = [0, 1].into_iter();
    let accesses = both.flat_map(|controller| ACCESSES.map(|access| (controller, access)));
    accesses.flat_map(|(controller, access)| {
        let there =
            Register::all().map(move |register| name(controller, &register.to_string(), access));
        let nowhere = NOWHERE.into_iter();
        let nowhere = nowhere.map(move |place| nowhere_name(controller, place, access));
        there.chain(nowhere).map(|name| (name, LEAST))
    })
}

pub fn count(tally: &mut Tally, call: Interrupts) {
    let [read, written] = ACCESSES;
    let (controller, offset, access) = match call {
        Interrupts::Read { controller, offset } => (controller, offset, read),
        Interrupts::Write {
            controller, offset, ..
        } => (controller, offset, written),
        _ => return,
    };
    tally.met(match Register::at(offset) {
        Some(register) => name(controller, &register.to_string(), access),
        None => nowhere_name(controller, nowhere(offset), access),
    });
}

/// Where an offset is at which there is no register.
fn nowhere(offset: u32) -> &'static str {
    match offset {
        0x240.. => FAR,
        _ if offset % 4 != 0 => ODD,
        _ => GAP,
    }
}
