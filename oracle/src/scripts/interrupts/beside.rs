//! A script of the bench with calls to the controllers between its own: neither changes the other,
//! but for the line.

use super::serving;
use super::setup::{self, Inputs};
use crate::scripts;
use crate::scripts::writer::Writer;

/// The most lines of the bench's script; others are as long, and the controllers' calls few.
const LINES: usize = 120;

pub fn a_busy_bench(writer: &mut Writer) {
    let script = scripts::random_script(&mut writer.random);
    let inputs = Inputs::all(&mut writer.random);
    for (place, line) in script.iter().take(LINES).enumerate() {
        writer.say(line);
        if place == 0 {
            setup::controllers(writer, &inputs);
        }
        if writer.random.once_in(2) {
            serving::step(writer, &inputs, 8);
        }
    }
    writer.look_at_interrupts();
}
