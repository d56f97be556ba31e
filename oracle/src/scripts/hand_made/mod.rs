//! Scripts for the marked cases and for the errors that look right.

mod bursts;
mod hashes;
mod interrupts;
mod polling;
mod reasons;
mod ticks;

use crate::compare::Script;
use crate::{check, hex};

/// Station registers for 02-00-00-00-00-01, and receiving started at address 0 with polling.
const RECEIVING: &str = "write 408 2\nwrite 404 100\nwrite 1c 1\nwrite 10 5\n";

/// A closed frame of `length` bytes, as a console line.
fn frame(destination: [u8; 6], length: usize, filler: u8) -> String {
    let mut message = vec![filler; length - 4];
    message[..6].copy_from_slice(&destination);
    format!("frame {}\n", hex::write(&check::closed(&message)))
}

const OWN: [u8; 6] = [2, 0, 0, 0, 0, 1];
const ALMOST: [u8; 6] = [0xFF, 0xFF, 0xFF, 0xFF, 0xFF, 0xFE];

/// All state, as the console can show it.
const LOOK: &str =
    "state\ncheck\nline\nread 4\nread 8\nread 10\nread 1c\nread 30\nread 3c\nread 400\n\
                    read 404\nread 408\nread 40c\nread 410\nread 48\ncounters\n";

pub fn scripts() -> Vec<Script> {
    let texts = [
        before_any_new(),
        windows(),
        frame_lengths(),
        turned_away(),
        foreign_descriptor(),
        loss_keeps_the_place(),
        sends(),
        longest_lines(),
        bursts::bursts(),
        bursts::many(),
        bursts::foreign_descriptor(),
        bursts::before_any_new(),
        hashes::registers(),
        hashes::one_bit_tables(),
        hashes::filter_modes(),
        hashes::in_a_burst(),
        polling::at_a_start(),
        polling::at_a_move(),
        polling::words_changed_later(),
        polling::words_changed_before(),
        polling::started_while_running(),
        polling::register_behind_a_stop(),
        polling::both_engines(),
        polling::several_at_once(),
        polling::after_reset(),
        polling::rings(),
        reasons::alone(),
        reasons::in_a_burst(),
        interrupts::before_any_new(),
        interrupts::registers(),
        interrupts::ranks(),
        interrupts::slots(),
        interrupts::all_ranks(),
        interrupts::ends(),
        interrupts::changed_while_served(),
        interrupts::statuses(),
        interrupts::ethernet(),
        interrupts::forms(),
        ticks::before_any_new(),
        ticks::up_to_each_value(),
        ticks::a_long_count(),
        ticks::register(),
        ticks::causes(),
        ticks::sends(),
        ticks::counted_frames(),
        ticks::forms(),
    ];
    texts
        .iter()
        .map(|text| text.lines().map(|line| line.as_bytes().to_vec()).collect())
        .collect()
}

fn before_any_new() -> String {
    format!(
        "{LOOK}frame -\nsend 1518\nsend 1517\nrun 1 0\nrun 0 0\nrun 4097 0\ngrant 0\nshow 0\n\
         ring 1 0\npeek 0 0\npeek 0 1\npoke 0 -\npoke 0 00\nwrite 10 5\nframe -\nwrite 4 ffffffff\n\
         {}lend 4\nframe -\n{LOOK}",
        frame(OWN, 64, 0)
    )
}

fn windows() -> String {
    let mut text = String::new();
    for window in [
        "0 60",
        "0 64",
        "0 66",
        "0 65540",
        "FFFFFFC0 64",
        "FFFFFFC4 64",
        "0 65536",
        "ffff0000 65536",
        "2 64",
        "0 0",
        "0 99999999",
    ] {
        text += &format!("new 0 64\nwrite 1c 40\nwrite 10 5\nnew {window}\n{LOOK}");
    }
    text
}

/// M7 and M8 with a descriptor that takes all.
fn frame_lengths() -> String {
    let mut text = format!("new 0 4096\npoke 0 ff4f00002000000000000000\n{RECEIVING}");
    for length in [63, 64, 65, 1_517, 1_518, 1_519] {
        text += &format!("grant 0\n{}show 0\n{LOOK}", frame(OWN, length, 0x5A));
    }
    text
}

/// M9, and no loss for a frame that the filter turned away, though nothing is granted.
fn turned_away() -> String {
    format!(
        "new 0 4096\npoke 0 ff4f00002000000000000000\n{RECEIVING}{}{LOOK}{}{LOOK}{}{LOOK}",
        frame(ALMOST, 64, 1),
        frame([0xFF; 6], 64, 1),
        frame(OWN, 64, 1)
    )
}

/// A buffer over the next descriptor: the next frame must see the new bytes.
fn foreign_descriptor() -> String {
    // The first frame's bytes 16 to 31 become the descriptor at 0x40: count 100, start 0x80,
    // next 0, granted.
    let mut message = vec![0; 60];
    message[..6].copy_from_slice(&OWN);
    message[16..32].copy_from_slice(&[100, 0x40, 0, 0, 0x80, 0, 0, 0, 0, 0, 0, 0, 0, 0, 1, 0]);
    let first = hex::write(&check::closed(&message));
    format!(
        "new 0 4096\npoke 0 ff4f0000300000004000000000000100\n{RECEIVING}frame {first}\n\
         peek 40 16\n{LOOK}{}peek 0 300\n{LOOK}",
        frame(OWN, 64, 0xEE)
    )
}

fn loss_keeps_the_place() -> String {
    let frame = frame(OWN, 64, 3);
    format!(
        "new 0 4096\npoke 0 ff4f0000400000001000000000000000\n\
         poke 10 ff4f0000000800000000000000000100\n{RECEIVING}{frame}{LOOK}{frame}grant 0\n\
         {frame}{LOOK}{frame}{LOOK}"
    )
}

/// M10 to M12, and the counts that fault.
fn sends() -> String {
    let mut text = String::from("new 0 8192\n");
    for count in [0, 13, 14, 59, 60, 61, 1_514, 1_515, 4_095] {
        for start in [0x10, 0x0C, 0x11, 0x2000, 0x1FF0] {
            let [low, high] = (count as u16).to_le_bytes();
            let start = hex::write(&u32::to_le_bytes(start));
            text += &format!(
                "poke 0 {low:02x}{high:02x}0000{start}0000000000000100\nwrite 30 0\nwrite 3c 0\n\
                 write 30 5\nsend 1518\npeek 0 16\n{LOOK}"
            );
        }
    }
    text
}

fn longest_lines() -> String {
    let digits = "0".repeat(4_090);
    format!("frame {digits}\nframe {digits}0\nframe {digits}00\n# {digits}000000\nstate\n")
}
