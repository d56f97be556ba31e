//! Frames taken for every reason, each with a grant before it, on a ring and changing filters.

use crate::hex;
use crate::scripts::layout;
use crate::scripts::receiving::start;
use crate::scripts::writer::Writer;

pub fn on_a_ring(writer: &mut Writer) {
    let count = writer.random.between(1, 5);
    let ring = layout::sound_ring(writer, count);
    writer.set_filter();
    start(writer, ring[0].address);
    for _ in 0..writer.random.between(4, 24) {
        match writer.random.below(8) {
            0 => writer.set_filter(),
            1 => writer.change_filter(),
            _ => {
                let place = writer.console.bench.receiver.place;
                writer.say(format!("grant {place:x}"));
                let length = writer.random.pick(&[64, 64, 65, 90, 400]);
                let frame = writer.passing_frame(length);
                writer.say(format!("frame {}", hex::write(&frame)));
            }
        }
    }
}
