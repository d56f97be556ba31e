//! Windows at the limits of what is allowed.

use super::writer::Writer;

const LENGTHS: [u32; 19] = [
    0, 4, 60, 62, 63, 64, 65, 66, 67, 68, 128, 4_096, 65_532, 65_535, 65_536, 65_537, 65_540,
    65_544, 99_999_999,
];

pub fn at_the_limits(writer: &mut Writer) {
    for _ in 0..writer.random.between(4, 12) {
        let length = match writer.random.below(4) {
            0 => writer.random.below(70_000) as u32,
            1 => writer.random.below(16_385) as u32 * 4,
            _ => writer.random.pick(&LENGTHS),
        };
        let last = ((1_u64 << 32) - u64::from(length)) as u32;
        let base = match writer.random.below(6) {
            0 => 0,
            1 => writer.random.pick(&[1, 2, 3, 4]),
            2 => last,
            3 => last.wrapping_add(4),
            4 => last.wrapping_sub(4),
            _ => writer.random.word(),
        };
        // What stood before must be gone.
        writer.any();
        writer.say(format!("new {base:x} {length}"));
        writer.marks = vec![base, writer.base(), writer.end().wrapping_sub(16)];
        writer.observe();
        edges(writer);
        for _ in 0..4 {
            writer.any();
        }
        writer.observe();
    }
}

/// Bytes and descriptors at both ends of the window.
fn edges(writer: &mut Writer) {
    let (base, end) = (writer.base(), writer.end());
    for address in [base.wrapping_sub(1), base, end.wrapping_sub(1), end] {
        writer.say(format!("poke {address:x} a5"));
        writer.say(format!("poke {address:x} -"));
        writer.say(format!("peek {address:x} 1"));
        writer.say(format!("peek {address:x} 0"));
    }
    for address in [
        base.wrapping_sub(4),
        base,
        base.wrapping_add(2),
        end.wrapping_sub(16),
        end.wrapping_sub(12),
        end,
    ] {
        let call = writer.random.pick(&["grant", "grant", "show"]);
        writer.say(format!("{call} {address:x}"));
    }
}
