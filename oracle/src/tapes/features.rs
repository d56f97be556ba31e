//! What a good trace can have that a wrong reader might not expect.

use crate::trace::{self, block, events, starts, Content, Event, Header};

pub const FEATURES: [&str; 13] = [
    "window of 64 bytes",
    "window of 65,536 bytes",
    "window from address 0 on",
    "window up to the last address",
    "no events",
    "frame of no bytes",
    "frame over 1,518 bytes",
    "frame over 65,535 bytes",
    "event across two blocks",
    "event across three blocks or more",
    "event up to a block's end",
    "last block full",
    "last block of one byte",
];

/// The features of a trace, each as often as it has it; none if it has a bad block.
pub fn features(bytes: &[u8]) -> Vec<&'static str> {
    match trace::content(bytes) {
        Ok(content) => {
            let mut met = of_window(content.header);
            met.extend(of_frames(&content));
            met.extend(of_places(&content));
            met
        }
        Err(_) => Vec::new(),
    }
}

fn of_window(window: Header) -> Vec<&'static str> {
    let Header { base, length } = window;
    let end = u64::from(base) + u64::from(length);
    let tests = [length == 64, length == 65_536, base == 0, end == 1 << 32];
    let names = FEATURES.into_iter().zip(tests);
    names.filter(|(_, is)| *is).map(|(name, _)| name).collect()
}

fn of_frames(content: &Content) -> Vec<&'static str> {
    let mut met = Vec::new();
    if content.count == 0 {
        met.push("no events");
    }
    for event in events(&content.events) {
        if let Event::Frame { bytes } = event {
            match bytes.len() {
                0 => met.push("frame of no bytes"),
                1..=1_518 => {}
                1_519..=65_535 => met.push("frame over 1,518 bytes"),
                _ => met.push("frame over 65,535 bytes"),
            }
        }
    }
    met
}

/// Where events lie to the blocks.
fn of_places(content: &Content) -> Vec<&'static str> {
    let mut met = Vec::new();
    let data = Header::SIZE + content.events.len();
    let starts = starts(&content.events).expect("the events of a trace are of their form");
    let firsts: Vec<usize> = starts.iter().map(|start| start + Header::SIZE).collect();
    let ends = firsts.iter().skip(1).copied().chain([data]);
    for (first, end) in firsts.iter().zip(ends) {
        match (end - 1) / block::DATA_MOST - first / block::DATA_MOST {
            0 => {}
            1 => met.push("event across two blocks"),
            _ => met.push("event across three blocks or more"),
        }
        if end % block::DATA_MOST == 0 {
            met.push("event up to a block's end");
        }
    }
    match data % block::DATA_MOST {
        0 => met.push("last block full"),
        1 => met.push("last block of one byte"),
        _ => {}
    }
    met
}

#[cfg(test)]
mod tests {
    use super::*;

    fn of(base: u32, length: u32, list: &[Event]) -> Vec<&'static str> {
        let header = Header { base, length };
        features(&block::all(&[header.bytes(), Event::list(list)].concat()))
    }

    #[test]
    fn of_traces_by_hand() {
        let frame = |length| Event::Frame {
            bytes: vec![0; length],
        };
        assert_eq!(of(4, 68, &[Event::Send]), Vec::<&str>::new());
        let wanted = [
            "window of 64 bytes",
            "window from address 0 on",
            "no events",
        ];
        assert_eq!(of(0, 64, &[]), wanted);
        let wanted = [
            "window of 65,536 bytes",
            "window up to the last address",
            "frame of no bytes",
        ];
        assert_eq!(of(0xFFFF_0000, 65_536, &[frame(0)]), wanted);
        // 6 + 5 + 493 is a block, and a byte more the next one's first.
        let wanted = ["event up to a block's end", "last block full"];
        assert_eq!(of(4, 68, &[frame(493)]), wanted);
        let wanted = ["event across two blocks", "last block of one byte"];
        assert_eq!(of(4, 68, &[frame(494)]), wanted);
        let wanted = [
            "frame over 1,518 bytes",
            "event across three blocks or more",
        ];
        assert_eq!(of(4, 68, &[frame(1_519)]), wanted);
        let wanted = [
            "frame over 65,535 bytes",
            "event across three blocks or more",
        ];
        assert_eq!(of(4, 68, &[frame(65_536)]), wanted);
        assert!(features(&[0; 512]).is_empty());
    }
}
