//! For each wrong reading a script that tells it, and the line that does.

use super::*;
use crate::{check, console, hex};

/// One granted send descriptor at 0 that leads to itself with polling; sending runs there, and
/// receiving at another one at 10 that is granted too, and takes all.
const WAITING: &str = "new 0 512\npoke 0 0e400000400000000100000000000100\n\
    poke 10 64400000800000001100000000000100\nwrite 400 80000000\n\
    write 3c 1\nwrite 30 5\nwrite 1c 11\nwrite 10 5\n";

/// The readings that a line tells from the right one.
fn told(watch: &mut Watch, console: &mut Console, line: &str) -> Vec<String> {
    let answer = console.take(line.as_bytes()).unwrap();
    let call = console::call(line.as_bytes()).unwrap();
    let happened = Happened::of(&call, &answer, console);
    let mut tally = Tally::default();
    watch.count(&mut tally, &call, &happened, &answer, console);
    names()
        .map(|(name, _)| name)
        .filter(|name| tally.count(name) > 0)
        .collect()
}

/// Whether the last of these lines tells a reading, and none before it does.
fn tells(lines: &str, slip: Slip) {
    let (mut watch, mut console) = (Watch::default(), Console::new());
    let lines = format!("{WAITING}{lines}");
    let mut lines = lines.lines().peekable();
    while let Some(line) = lines.next() {
        let told = told(&mut watch, &mut console, line).contains(&name(slip));
        assert_eq!(told, lines.peek().is_none(), "{slip}: {line}");
    }
}

#[test]
fn when_a_tick_fires() {
    let fire = "write 48 2\ntick\ntick\ntick\n";
    tells("write 48 2\ntick\ntick\ncounters", Slip::FiresAtTheValue);
    tells(&format!("{fire}counters"), Slip::FiresOneLater);
    tells("tick\nread 8", Slip::ZeroFires);
    tells("tick\ncounters", Slip::ZeroCounts);
    tells(&format!("{fire}counters"), Slip::FireKeepsTheCount);
    tells(&format!("{fire}counters"), Slip::FireLeavesOne);
    tells(
        &format!("{fire}tick\ntick\ntick\ncounters"),
        Slip::FiresOnce,
    );
    tells(&format!("{fire}state"), Slip::FireStopsSending);
    for slip in [
        Slip::RaisesRxTo,
        Slip::RaisesTxFull,
        Slip::RaisesTxNext,
        Slip::RaisesBoth,
        Slip::RaisesNothing,
    ] {
        tells(&format!("{fire}read 8"), slip);
    }
    tells(&format!("write 4 80000\n{fire}line"), Slip::RaisesNothing);
}

#[test]
fn what_a_tick_counts() {
    let counted = "write 48 5\ntick\n";
    let outside = "write 30 0\nwrite 3c 1f4\nwrite 30 5\n";
    for (lines, slip) in [
        ("write 30 0\ntick", Slip::StoppedCounts),
        ("write 30 0\ntick", Slip::StoppedKeeps),
        ("poke c 00000000\ntick", Slip::ReturnedCounts),
        ("poke c 00000000\ntick", Slip::ReturnedKeeps),
        (&format!("{outside}tick"), Slip::OutsideCounts),
        (&format!("{outside}tick"), Slip::OutsideKeeps),
        ("poke 0 0d\ntick", Slip::BufferAsked),
        ("poke 4 01\ntick", Slip::BufferAsked),
        (
            "write 30 0\nwrite 3c 0\nwrite 30 5\ntick",
            Slip::PollingAsked,
        ),
        ("write 10 0\ntick", Slip::ReceivingAsked),
    ] {
        tells(&format!("{counted}{lines}\ncounters"), slip);
    }
    tells(&format!("{counted}counters"), Slip::NeverCounts);
    tells("write 30 0\ntick", Slip::RefusedWhileStopped);
    tells("poke c 00000000\ntick", Slip::RefusedReturned);
    tells(&format!("{outside}tick"), Slip::RefusedOutside);
    tells("lend 508\ntick", Slip::LentNotAsked);
    tells(
        &format!("{counted}lend 508\ntick\ncounters"),
        Slip::RefusedClears,
    );
    tells(
        &format!("{counted}lend 508\ntick\ncounters"),
        Slip::RefusedCounts,
    );
}

#[test]
fn what_else_clears_the_count() {
    let counted = "write 48 5\ntick\ntick\n";
    for (lines, slip) in [
        ("send 1518", Slip::SendLeaves),
        ("run 1 1518", Slip::RunLeaves),
        ("write 30 0\nsend 1518", Slip::RefusedBy3Clears),
        ("poke 4 01\nsend 1518", Slip::RefusedBy7Clears),
        ("poke c 00000000\nsend 1518", Slip::RefusedBy8Clears),
        ("poke 0 0d\nsend 1518", Slip::RefusedBy12Clears),
        ("write 48 4", Slip::AnyWriteClears),
        ("write 48 0", Slip::ZeroWriteWaits),
        ("write 48 10000", Slip::ZeroBeforeTheMask),
        ("write 48 1", Slip::SmallerWriteFires),
        ("write 30 0", Slip::StopClears),
        ("write 30 5", Slip::StartClears),
    ] {
        tells(&format!("{counted}{lines}\ncounters"), slip);
    }
    let frame = whole_frame();
    tells(&format!("{counted}{frame}\ncounters"), Slip::DeliveryClears);
}

/// A frame to everybody.
fn whole_frame() -> String {
    let mut message = [0; 60];
    message[..6].fill(0xFF);
    format!("frame {}", hex::write(&check::closed(&message)))
}

/// A burst of that frame so many times.
fn burst(count: usize) -> String {
    let frame = whole_frame();
    let store = frame.strip_prefix("frame ").unwrap();
    let length = store.len() / 2;
    let pairs = format!(" 0 {length}").repeat(count);
    format!("burst {count} {store}{pairs}")
}

#[test]
fn the_register() {
    tells("read 48", Slip::NotModelled);
    tells("write 48 1", Slip::NotModelled);
    tells("write 48 1\nread 48", Slip::ReadOnly);
    tells("write 48 ffffffff\nread 48", Slip::SeventeenBits);
    tells("write 48 20001\nread 48", Slip::AllBits);
    tells("write 48 101\nread 48", Slip::EightBits);
    tells("write 48 2\nread 48", Slip::CountRead);
}

#[test]
fn the_counters() {
    let frame = whole_frame();
    let turned_away = format!("write 400 0\nframe {}", another_station());
    for (lines, slip) in [
        (
            "poke c 00000000\nsend 1518".to_string(),
            Slip::SendLossCounts,
        ),
        (turned_away.clone(), Slip::FilteredLost),
        (turned_away, Slip::FilteredDelivered),
        (format!("poke 10 3c\n{frame}"), Slip::FaultLost),
        (format!("poke 10 3c\n{frame}"), Slip::FaultDelivered),
        (format!("write 10 0\n{frame}"), Slip::StoppedLost),
        ("burst 1 00 0 2".to_string(), Slip::OutsidePairLost),
        (format!("poke 1c 00000000\n{frame}"), Slip::LostDelivered),
        (burst(3), Slip::BurstOnce),
        (burst(1), Slip::BurstNotCounted),
        ("run 1 1518".to_string(), Slip::RunNotCounted),
        ("run 2 9000".to_string(), Slip::RunSteps),
        ("poke c 00000000\nsend 1518".to_string(), Slip::RefusedSent),
        (format!("{frame}\ncounters"), Slip::ReadingClears),
        (
            "write 48 5\ntick\ncounters".to_string(),
            Slip::ReadingClearsTheCount,
        ),
    ] {
        tells(&format!("{lines}\ncounters"), slip);
    }
    // A second descriptor at 20, to which the first leads.
    let second = "poke 20 0e400000400000002100000000000100\npoke 8 21000000\nrun 2 9000\ncounters";
    tells(second, Slip::RunOnce);
}

/// A frame to another station.
fn another_station() -> String {
    hex::write(&check::closed(&[0x0A; 60]))
}

#[test]
fn a_new_bench() {
    let frame = whole_frame();
    tells(&format!("{frame}\nnew 0 64\ncounters"), Slip::NewKeeps);
    tells(
        &format!("{frame}\nnew 0 60\ncounters"),
        Slip::RefusedNewKeeps,
    );
    tells(
        "write 48 5\ntick\nnew 0 64\ncounters",
        Slip::NewKeepsTheCount,
    );
    tells("write 48 5\nnew 0 64\nread 48", Slip::NewKeepsTheValue);
}
