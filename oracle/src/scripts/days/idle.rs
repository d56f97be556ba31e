//! A bench on which little is set up, in a window of any kind.

use super::{grant, send};
use crate::scripts::writer::Writer;

pub fn without_a_start(writer: &mut Writer) {
    let length = match writer.random.below(4) {
        0 => writer.random.pick(&[64, 68, 65_532, 65_536]),
        _ => 4 * writer.random.between(16, 500) as u32,
    };
    writer.new_bench(length);
    writer.marks = vec![writer.base(), writer.end().wrapping_sub(16)];
    for _ in 0..writer.random.between(1, 40) {
        match writer.random.below(6) {
            0 => {
                writer.frame();
            }
            1 => {
                send(writer);
            }
            2 | 3 => grant(writer),
            _ => writer.register_write(),
        }
    }
}
