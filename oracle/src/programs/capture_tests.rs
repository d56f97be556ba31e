//! Whole outputs and captures by hand.

use super::{export_capture, import_capture, told, CAPTURE_ROOM, ROOM};
use crate::capture::{header, record, Time};
use crate::files::{Contents, Entry};
use crate::random::Random;
use crate::scripts::days::random_day;
use crate::trace::{block, Event, Header};
use crate::{check, hex, recording};

/// A receive descriptor at 0, for 64 bytes at 80 hex, that leads to itself, and a send descriptor at 20
/// hex for the 14 bytes at 40 hex, the last of its chain; all stations are heard.
const FRONT: &str = "new 0 256\npoke 0 40400000800000000100000000000000\n\
                     poke 20 0e000000400000000000000000000100\npoke 40 0102030405060708\n\
                     write 1c 1\nwrite 10 5\nwrite 3c 20\nwrite 30 5\n";

fn frame() -> Vec<u8> {
    let mut message = [0x77; 60];
    message[..6].fill(0xFF);
    check::closed(&message)
}

/// The trace and the memory of a day: a frame lost, one delivered, one wrong, one sent, and more that
/// are not.
fn day() -> (Vec<u8>, Vec<u8>) {
    let digits = hex::write(&frame());
    let script = format!(
        "{FRONT}frame {digits}\ngrant 0\nframe {digits}\nframe 00\nsend 1518\nsend 1518\n\
         grant 0\nframe {digits}\n"
    );
    let recording = recording::of(script.as_bytes()).unwrap();
    (recording.trace(), recording.image)
}

#[test]
fn delivered_and_sent_frames_by_their_events() {
    let (trace, memory) = day();
    let exported = export_capture::export(&trace, &memory).ok().unwrap();
    let mut sent = vec![1, 2, 3, 4, 5, 6, 7, 8];
    sent.resize(60, 0);
    let at = |microseconds, bytes: &[u8]| {
        let time = Time {
            seconds: 0,
            microseconds,
        };
        record::made(time, bytes)
    };
    // Four writes, the lost frame, the grant; then the frame, the wrong one, the send.
    let message = &frame()[..60];
    let wanted = [
        header::made().to_vec(),
        at(6, message),
        at(8, &sent),
        at(11, message),
    ];
    assert_eq!(exported.file, wanted.concat());
    assert_eq!(exported.frames, 3);
}

#[test]
fn memory_of_another_length_gives_no_frames() {
    let (trace, memory) = day();
    for memory in [&[][..], &memory[1..], &vec![0; 200_000]] {
        let exported = export_capture::export(&trace, memory).ok().unwrap();
        assert_eq!(
            (exported.file, exported.frames),
            (header::made().to_vec(), 0)
        );
    }
}

#[test]
fn refusals_of_an_export() {
    let told = |trace: &[u8]| export_capture::export(trace, &[]).err().unwrap();
    assert_eq!(told(&[]), "refused 17 0\n");
    assert_eq!(told(&[0; 512]), "refused 20 0\n");
    assert_eq!(told(&vec![0; ROOM + 1]), "refused 23\n");
}

/// Events by their numbers, past the first second.
#[test]
fn seconds_are_millions_of_events() {
    let recording = recording::of(format!("{FRONT}grant 0\n").as_bytes()).unwrap();
    let mut events = recording.events.clone();
    events.resize(1_000_002, Event::Grant { address: 1 });
    events.push(Event::Frame { bytes: frame() });
    let content = crate::trace::Content {
        header: recording.header,
        count: events.len() as u64,
        events: Event::list(&events),
    };
    let frames = export_capture::frames(&content, &recording.image);
    let times: Vec<Time> = frames.iter().map(|timed| timed.time).collect();
    let wanted = Time {
        seconds: 1,
        microseconds: 2,
    };
    assert_eq!(times, [wanted]);
}

#[test]
fn a_capture_has_what_a_replay_tells() {
    let mut random = Random::new(23);
    let mut met = 0;
    for _ in 0..100 {
        let script = random_day(&mut random).join(&b'\n');
        let recording = recording::of(&script).unwrap();
        let (trace, memory) = (recording.trace(), &recording.image);
        let frames = told::by_replay(&trace, memory);
        let exported = export_capture::export(&trace, memory).ok().unwrap();
        met += frames.len();
        assert_eq!(told::by_capture(&exported.file), Ok(frames));
    }
    assert!(met > 100, "{met}");
}

/// The capture of one frame of 60 bytes, at 7 seconds and 1,000,000 microseconds.
fn pcap() -> Vec<u8> {
    let time = Time {
        seconds: 7,
        microseconds: 1_000_000,
    };
    [header::made().to_vec(), record::made(time, &frame()[..60])].concat()
}

#[test]
fn a_capture_imported() {
    let imported = import_capture::import(&pcap(), 0x2000_0000, 4_096)
        .ok()
        .unwrap();
    assert_eq!(imported.output, "imported 1\ntime 7 1000000\n");
    let header = Header {
        base: 0x2000_0000,
        length: 4_096,
    };
    let event = Event::Frame { bytes: frame() }.bytes();
    let trace = block::all(&[header.bytes(), event].concat());
    assert_eq!(imported.trace, trace);
    let imported = import_capture::import(&header::made(), 0, 64).ok().unwrap();
    assert_eq!(imported.output, "imported 0\n");
    assert_eq!(imported.trace.len(), 512);
}

#[test]
fn refusals_of_an_import() {
    let told = |file: &[u8], length| import_capture::import(file, 0, length).err();
    assert_eq!(told(&pcap(), 60), Some(26));
    assert_eq!(told(&pcap()[..99], 60), Some(35));
    assert_eq!(told(&[], 60), Some(31));
    assert_eq!(told(&vec![0; CAPTURE_ROOM], 60), Some(32));
    assert_eq!(told(&vec![0; CAPTURE_ROOM + 1], 60), Some(37));
}

/// "Every other capture has room, and the trace that is made of it has at most 4,161 blocks."
#[test]
fn the_longest_trace() {
    let time = Time {
        seconds: 0,
        microseconds: 0,
    };
    let bytes = vec![0; CAPTURE_ROOM - 40];
    let file = [header::made().to_vec(), record::made(time, &bytes)].concat();
    let imported = import_capture::import(&file, 0, 64).ok().unwrap();
    assert_eq!(imported.trace.len(), 4_161 * 512);
}

#[test]
fn the_order_of_the_tests() {
    let (trace, memory) = day();
    let mut before = Contents::new("/home");
    before.put("trace", Entry::File(trace));
    before.put("memory", Entry::File(memory));
    before.put("pcap", Entry::File(pcap()));
    before.put("bad", Entry::File(vec![0; 30]));
    before.put("folder", Entry::Folder);
    let words = |text: &str| text.split(' ').map(String::from).collect::<Vec<_>>();
    for (arguments, output) in [
        ("trace memory", export_capture::USAGE),
        ("trace memory a b", export_capture::USAGE),
        ("none none folder", "error none\n"),
        ("bad none folder", "error none\n"),
        ("bad memory folder", "refused 17 0\n"),
        ("trace memory folder", "error folder\n"),
        ("trace memory a", "exported 3\n"),
        // Over one that was read.
        ("trace memory trace", "exported 3\n"),
    ] {
        let ended = export_capture::run(&words(arguments), &before);
        assert_eq!(ended.output, output, "{arguments}");
        assert_eq!(ended.after != before, output.starts_with("exported"));
    }
    for (arguments, output) in [
        ("pcap a 0", import_capture::USAGE),
        ("pcap a 0 64 0", import_capture::USAGE),
        ("none folder x y", "error x\n"),
        ("none folder 0 y", "error y\n"),
        ("none folder 0 60", "error none\n"),
        ("bad folder 0 60", "refused 32\n"),
        ("pcap folder 0 60", "refused 26\n"),
        ("pcap folder 0 64", "error folder\n"),
        ("pcap a 0 64", "imported 1\ntime 7 1000000\n"),
        ("pcap pcap 0 64", "imported 1\ntime 7 1000000\n"),
        ("pcap a 000000000 64", "error 000000000\n"),
        ("pcap a fffffffF 64", "refused 26\n"),
        ("pcap a 0 0x40", "error 0x40\n"),
        ("pcap a  64", "error \n"),
    ] {
        let ended = import_capture::run(&words(arguments), &before);
        assert_eq!(ended.output, output, "{arguments}");
        assert_eq!(ended.after != before, output.starts_with("imported"));
    }
}
