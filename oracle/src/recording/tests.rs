//! Scripts and what is recorded of them.

use super::*;

fn wrong(script: &str) -> usize {
    of(script.as_bytes()).expect_err(script)
}

#[test]
fn a_day_with_one_event_of_each_kind() {
    let script = "# a day\n\nnew 40 64\npoke 7E aaBB\npoke 80 -\nwrite 4 8\ngrant 40\nframe 00ff\n\
                  frame -\nsend 1518\nsend 65536";
    let recording = of(script.as_bytes()).unwrap();
    let mut image = vec![0; 64];
    image[62..].copy_from_slice(&[0xAA, 0xBB]);
    assert_eq!(recording.header.bytes(), [0x40, 0, 0, 0, 63, 0]);
    assert_eq!(recording.image, image);
    let events = [
        Event::Write {
            offset: 4,
            value: 8,
        },
        Event::Grant { address: 0x40 },
        Event::Frame {
            bytes: vec![0, 0xFF],
        },
        Event::Frame { bytes: vec![] },
        Event::Send,
        Event::Send,
    ];
    assert_eq!(recording.events, events);
    assert_eq!(recording.trace().len(), 512);
}

#[test]
fn no_new_at_all() {
    assert_eq!(wrong(""), 0);
    assert_eq!(wrong("\n"), 1);
    assert_eq!(wrong("\n\n# nothing"), 3);
    assert_eq!(wrong("\n\n# nothing\n"), 3);
}

#[test]
fn lines_that_cannot_stand_there() {
    for line in [
        "new 0 60",
        "new 2 64",
        "poke 0 00",
        "send 1518",
        "hello",
        "state",
        "tick",
        "counters",
        "new 0 64 ",
    ] {
        assert_eq!(wrong(&format!("#\n{line}\nnew 0 64\n")), 2, "{line}");
    }
    for line in [
        "new 0 64",
        "poke 40 00",
        "poke 41 -",
        "send 1517",
        "send 65537",
        "lend 64",
        "read 4",
        "burst 0 -",
        "run 1 1518",
        "check",
        "tick",
        "counters",
        " ",
    ] {
        assert_eq!(
            wrong(&format!("new 0 64\n\n{line}\nsend 1518")),
            3,
            "{line}"
        );
    }
    assert_eq!(wrong("new 0 64\nsend 1518\npoke 0 00\nhello"), 3);
}

#[test]
fn long_lines() {
    let digits = "0".repeat(4_090);
    assert!(of(format!("# {digits}{digits}\nnew 0 64\nframe {digits}").as_bytes()).is_ok());
    assert_eq!(wrong(&format!("new 0 64\nframe {digits}00")), 2);
}

#[test]
fn a_call_to_the_interrupt_controllers_cannot_be_recorded() {
    for line in ["vread 0 30", "vwrite 0 10 1", "inputs 0 1", "irq", "fiq"] {
        assert_eq!(wrong(line), 1);
        assert_eq!(wrong(&format!("new 0 64\n{line}\n")), 2);
        assert_eq!(
            wrong(&format!("new 0 64\nwrite 4 1\n{line}\nwrite 4 1\n")),
            3
        );
    }
}
