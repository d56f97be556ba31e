//! Replay: refusals, and a day worked out by hand.

use crate::check;
use crate::device::Bench;
use crate::trace::{block, replay, Event};

/// A window of 128 bytes at 0: a receive descriptor at 0 for 64 bytes at 64, without a next, and a
/// send descriptor at 16 for 14 bytes at 32, granted and linked to itself with polling.
fn memory() -> Vec<u8> {
    let words: [u32; 8] = [64, 64, 0, 0, 14 | 1 << 14, 32, 16 | 1, 1 << 16];
    let mut memory: Vec<u8> = words.iter().flat_map(|word| word.to_le_bytes()).collect();
    memory.resize(128, 0xA5);
    memory
}

fn frame() -> Vec<u8> {
    check::closed(&[0xFF; 60])
}

fn day() -> Vec<Event> {
    let write = |offset, value| Event::Write { offset, value };
    let frame = || Event::Frame { bytes: frame() };
    vec![
        frame(),
        write(0x1C, 1),
        write(0x10, 5),
        frame(),
        Event::Grant { address: 0 },
        Event::Grant { address: 0 },
        frame(),
        Event::Send,
        write(0x3C, 16),
        write(0x30, 5),
        write(0x3C, 16),
        Event::Send,
        Event::Send,
        write(0, 0),
    ]
}

const ANSWERS: [u32; 14] = [3, 0, 0, 8, 0, 14, 0, 3, 0, 0, 15, 0, 8, 2];

fn trace(events: &[Event]) -> Vec<u8> {
    let header = [0, 0, 0, 0, 127, 0];
    block::all(&[&header[..], &Event::list(events)].concat())
}

/// What the events answer, lent the memory above and this output.
fn answers_of(events: &[Event], output: &mut [u8]) -> Vec<u32> {
    let mut room = vec![0; Event::list(events).len()];
    let mut answers = vec![99; events.len()];
    replay(
        &trace(events),
        &mut room,
        &mut memory(),
        output,
        &mut answers,
    );
    answers
}

#[test]
fn a_day_by_hand() {
    let trace = trace(&day());
    let list = Event::list(&day());
    let mut room = vec![0xEE; list.len() + 3];
    let mut memory = memory();
    let mut output = vec![0xDD; 1_600];
    let mut answers = vec![99; ANSWERS.len() + 2];
    let played = replay(&trace, &mut room, &mut memory, &mut output, &mut answers);
    assert_eq!((played.number, played.block), (0, 0));
    assert_eq!((played.bytes, played.events), (list.len() as u64, 14));
    assert_eq!(answers[..14], ANSWERS);
    assert_eq!(answers[14..], [99, 99]);
    assert_eq!(room[..list.len()], list);
    assert_eq!(room[list.len()..], [0xEE; 3]);
    assert_eq!(memory[64..], frame());
    // To everybody: bit 28.
    assert_eq!(memory[12..16], [64, 0, 0, 0x10]);
    assert_eq!(memory[28..32], [0, 0, 0, 0]);
    assert!(check::right(&output[..64]));
    assert_eq!(output[..14], [0xA5; 14]);
    assert!(output[64..].iter().all(|byte| *byte == 0xDD));
    let (mut bench, _) = Bench::new(0, 128);
    let mut again = self::memory();
    let mut sent = vec![0; 1_518];
    for event in day() {
        event.call(&mut bench, &mut again, &mut sent);
    }
    assert_eq!(played.bench, bench);
    assert_eq!(memory, again);
    assert!(!bench.receiver.running);
    assert!(bench.receiver.polling);
    assert!(bench.sender.running);
    assert!(bench.sender.polling);
}

#[test]
fn without_polling_8_stops_until_a_start() {
    let write = |offset, value| Event::Write { offset, value };
    let frame = || Event::Frame { bytes: frame() };
    let events = [
        write(0x10, 5),
        frame(),
        frame(),
        Event::Grant { address: 0 },
        frame(),
        write(0x10, 5),
        frame(),
        // Sending at the same descriptor, which is returned now; then at one of its own, whose next
        // word alone has the bit.
        write(0x30, 5),
        Event::Send,
        Event::Send,
        write(0x3C, 16),
        write(0x30, 5),
        Event::Send,
        Event::Send,
        Event::Send,
    ];
    let answers = answers_of(&events, &mut [0xDD; 1_518]);
    let wanted = [0, 8, 3, 0, 3, 0, 0, 0, 8, 3, 0, 0, 0, 8, 8];
    assert_eq!(answers, wanted);
}

#[test]
fn refusals_leave_row_1_and_all_that_is_lent() {
    let good = trace(&day());
    let bytes = Event::list(&day()).len();
    let mut bad = good.clone();
    bad[508] ^= 1;
    for (trace, room, answers, number) in [
        (&bad, bytes, 14, 19),
        (&bad, 0, 0, 19),
        (&good, bytes - 1, 14, 23),
        (&good, bytes - 1, 0, 23),
        (&good, bytes, 13, 24),
        (&good, bytes + 9, 0, 24),
    ] {
        let mut room = vec![0xEE; room];
        let mut memory = memory();
        let mut output = vec![0xDD; 1_518];
        let mut answers = vec![99; answers];
        let before = (room.clone(), memory.clone(), answers.clone());
        let played = replay(trace, &mut room, &mut memory, &mut output, &mut answers);
        assert_eq!((played.number, played.block), (number, 0));
        assert_eq!((played.bytes, played.events), (0, 0));
        assert_eq!(played.bench, Bench::new(1, 0).0);
        assert_eq!(before, (room, memory, answers));
        assert!(output.iter().all(|byte| *byte == 0xDD));
    }
}

#[test]
fn memory_of_another_length_is_no_refusal() {
    let events = day();
    let mut room = vec![0; Event::list(&events).len()];
    let mut memory = vec![7; 124];
    let mut output = vec![0xDD; 1_518];
    let mut answers = vec![99; 14];
    let played = replay(
        &trace(&events),
        &mut room,
        &mut memory,
        &mut output,
        &mut answers,
    );
    assert_eq!(played.number, 0);
    let wanted = [11, 0, 0, 11, 11, 11, 11, 11, 0, 0, 15, 11, 11, 2];
    assert_eq!(answers, wanted);
    assert_eq!(memory, [7; 124]);
}

#[test]
fn a_short_output_answers_each_send() {
    let events = [Event::Send, Event::Send];
    for (length, number) in [(0, 9), (1_517, 9), (1_518, 3)] {
        let mut output = vec![0xDD; length];
        let answers = answers_of(&events, &mut output);
        assert_eq!(answers, [number; 2]);
        assert!(output.iter().all(|byte| *byte == 0xDD));
    }
}

#[test]
fn each_send_is_lent_the_whole_output() {
    let write = |offset, value| Event::Write { offset, value };
    let events = [
        write(0x3C, 16),
        write(0x30, 5),
        Event::Send,
        // The descriptor is granted again, as a grant writes the same word.
        Event::Grant { address: 16 },
        Event::Send,
    ];
    let mut output = vec![0xDD; 1_518];
    assert_eq!(answers_of(&events, &mut output), [0; 5]);
    assert_eq!(output[64..128], [0xDD; 64]);
}

#[test]
fn a_replay_counts_each_frame_and_send() {
    let time_out = Event::Write {
        offset: 0x48,
        value: 0x0001_0007,
    };
    let events = [day(), vec![time_out]].concat();
    let mut answers = vec![99; events.len()];
    let replayed = replay(
        &trace(&events),
        &mut vec![0; Event::list(&events).len()],
        &mut memory(),
        &mut [0; 1_518],
        &mut answers,
    );
    // Of three frames one meets 3, one 8 and one 0; of three sends one meets 3, one 0 and one 8.
    let counters = replayed.bench.counters;
    assert_eq!(
        [counters.delivered, counters.lost, counters.sent],
        [1, 1, 1]
    );
    assert_eq!(replayed.bench.ticks, 0);
    assert_eq!(replayed.bench.read(0x48), (0, 7));
}
