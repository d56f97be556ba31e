//! Each reading by a script of which the last line, and no line before, tells it.

use super::slip::Slip;
use super::*;
use crate::console::{self, Call, Console};
use crate::random::Random;
use crate::scripts;

/// All inputs enabled, and default vectors that differ; `E;` in the scripts.
const SET_UP: &str = "vwrite 0 10 ffff;vwrite 1 10 ffff;vwrite 0 34 d0;vwrite 1 34 d1;";

const TOLD: [(Slip, &str); 59] = [
    (
        Slip::SlotsReversed,
        "E;vwrite 0 200 21;vwrite 0 204 22;inputs 0 6;irq",
    ),
    (Slip::Vic1First, "E;inputs 0 1;inputs 1 1;irq"),
    (Slip::WithoutASlotFirst, "E;vwrite 0 200 22;inputs 0 5;irq"),
    (Slip::HigherInputsFirst, "E;inputs 0 6;irq"),
    (
        Slip::Vic1SlotsBefore,
        "E;vwrite 1 200 20;inputs 0 1;inputs 1 1;irq",
    ),
    (
        Slip::HigherSlotOfTwo,
        "E;vwrite 0 200 21;vwrite 0 204 21;vwrite 0 100 a0;inputs 0 2;irq",
    ),
    (
        Slip::SlotEnableIgnored,
        "E;vwrite 0 200 1;vwrite 0 100 a0;inputs 0 2;irq",
    ),
    (Slip::WithoutASlotNone, "E;inputs 0 2;irq"),
    (Slip::FiqAnswered, "E;vwrite 0 c 2;inputs 0 2;irq"),
    (Slip::DisabledAnswered, "inputs 0 2;irq"),
    (Slip::DisabledFiq, "vwrite 0 c 2;inputs 0 2;fiq"),
    (Slip::FiqOfVic0Alone, "E;vwrite 1 c 2;inputs 1 2;fiq"),
    (Slip::SoftwareNotRaw, "vwrite 0 18 2;vread 0 8"),
    (Slip::SoftwareNotAnswered, "E;vwrite 0 18 2;vread 0 8;irq"),
    (
        Slip::SoftwareClearedByTaking,
        "E;vwrite 0 18 2;vread 0 30;vread 0 8",
    ),
    (Slip::InputsLatched, "inputs 0 2;inputs 0 0;vread 0 8"),
    (Slip::EthernetAt12, "vread 0 8;write 4 1;vread 0 8"),
    (Slip::EthernetAtVic1, "write 4 1;vread 1 8"),
    (
        Slip::EthernetBeside,
        "write 4 1;vread 0 8;write 4 0;inputs 0 800;vread 0 8",
    ),
    (Slip::EthernetLeftOut, "vread 0 8;write 4 1;vread 0 8"),
    (
        Slip::RankNow,
        "E;vwrite 0 220 23;inputs 0 8;vread 0 30;irq;vwrite 0 210 23;irq",
    ),
    (Slip::EqualRank, "E;inputs 0 2;irq;vread 0 30;irq"),
    (
        Slip::OwnRankAlone,
        "E;inputs 0 2;vread 0 30;irq;inputs 0 4;irq",
    ),
    (
        Slip::WhileRaised,
        "E;inputs 0 2;vread 0 30;inputs 0 6;irq;inputs 0 4;irq",
    ),
    (
        Slip::ListForEach,
        "E;inputs 0 2;vread 0 30;irq;inputs 1 1;irq",
    ),
    (
        Slip::StatusMasked,
        "E;inputs 0 2;vread 0 0;vread 0 30;vread 0 0",
    ),
    (Slip::TakenByVic1Var, "E;inputs 0 2;vread 1 30;irq"),
    (Slip::TakenByStatus, "E;inputs 0 2;vread 0 0;irq"),
    (Slip::TakenByAsking, "E;inputs 0 2;irq;irq"),
    (Slip::NeverTaken, "E;inputs 0 2;vread 0 30;irq"),
    (
        Slip::FirstTakenEnds,
        "E;inputs 0 4;vread 0 30;inputs 0 2;vread 0 30;vwrite 0 30 0;irq",
    ),
    (
        Slip::AllEnd,
        "E;inputs 0 4;vread 0 30;inputs 0 2;vread 0 30;vwrite 0 30 0;inputs 0 4;irq",
    ),
    (
        Slip::AnyVarEnds,
        "E;inputs 0 2;vread 0 30;vwrite 1 30 0;irq",
    ),
    (
        Slip::Vic0VarEndsEither,
        "E;inputs 1 2;vread 0 30;vwrite 1 30 0;irq",
    ),
    (
        Slip::DefaultOfVic0,
        "E;inputs 0 2;irq;inputs 0 0;inputs 1 2;irq",
    ),
    (Slip::DefaultAlways, "E;vwrite 0 200 21;inputs 0 2;irq"),
    (Slip::SpuriousZero, "E;inputs 0 2;vread 0 30;vread 0 30"),
    (Slip::SpuriousLast, "E;inputs 1 2;vread 0 30;vread 0 30"),
    (Slip::VarDataKept, "vwrite 0 30 7;vread 0 30"),
    (
        Slip::Vic1VarDefault,
        "E;vwrite 1 200 21;inputs 1 2;vread 0 30;vread 1 30",
    ),
    (Slip::Vic1VarNeverZero, "E;vread 1 30"),
    (
        Slip::Vic1VarThen,
        "E;inputs 1 2;vread 0 30;vread 1 30;vwrite 1 34 7;vread 1 30",
    ),
    (
        Slip::Vic1VarBelow,
        "E;inputs 1 2;vread 0 30;vread 1 30;inputs 0 2;vread 0 30;vread 1 30",
    ),
    (Slip::VectorsOf16Bits, "vwrite 0 34 10001;vread 0 34"),
    (
        Slip::EnableWritten,
        "vwrite 0 10 1;vwrite 0 10 2;vread 0 10",
    ),
    (
        Slip::SoftwareWritten,
        "vwrite 0 18 1;vwrite 0 18 2;vread 0 18",
    ),
    (Slip::SelectionSet, "vwrite 0 c 1;vwrite 0 c 2;vread 0 c"),
    (Slip::EnableClearWritten, "vwrite 0 14 1;vread 0 10"),
    (Slip::ClearsRead, "vread 0 14;vwrite 0 10 1;vread 0 14"),
    (Slip::UpperHalves, "vwrite 0 c 10001;vread 0 c"),
    (
        Slip::ControlBit4,
        "vwrite 0 200 2f;vread 0 200;vwrite 0 200 3f;vread 0 200",
    ),
    (
        Slip::WideProtection,
        "vwrite 0 20 1;vread 0 20;vwrite 0 20 3;vread 0 20",
    ),
    (
        Slip::ProtectionWorks,
        "vwrite 0 20 1;vwrite 0 34 5;vread 0 34",
    ),
    (Slip::StatusWritten, "vwrite 0 18 1;vwrite 0 4 1;vread 0 18"),
    (Slip::LowBitsIgnored, "vread 0 10;vread 0 11"),
    (Slip::NewKeeps, "vwrite 0 34 5;new 0 64;vread 0 34"),
    (Slip::NewKeepsInputs, "inputs 0 2;new 0 64;vread 0 8"),
    (
        Slip::NewKeepsService,
        "E;inputs 0 2;vread 0 30;new 0 64;vwrite 0 10 ffff;inputs 0 2;irq",
    ),
    (
        Slip::RefusedNewKeeps,
        "vwrite 0 34 5;new 0 64;vread 0 34;vwrite 0 34 5;new 0 60;vread 0 34",
    ),
];

/// What is counted of each line of a script.
fn counts<'script>(lines: impl Iterator<Item = &'script [u8]>, kind: &str) -> (Vec<usize>, Tally) {
    let (mut console, mut watch, mut tally) = (Console::new(), Watch::default(), Tally::default());
    let mut found = Vec::new();
    for line in lines {
        let before = tally.count(kind);
        let answer = console.take(line).unwrap_or_default();
        if let Some(number) = answer.strip_prefix("new ") {
            watch.renewed(number.parse().unwrap());
        } else if let Some(Call::Interrupts(call)) = console::call(line) {
            watch.count(&mut tally, call, console.bench.line(), &answer);
        }
        found.push(tally.count(kind) - before);
    }
    (found, tally)
}

#[test]
fn each_reading_is_told_by_the_last_line() {
    for (slip, script) in TOLD {
        let script = script.replace("E;", SET_UP);
        let lines = script.split(';').map(str::as_bytes);
        let (counts, _) = counts(lines, &name(slip));
        let (last, before) = counts.split_last().unwrap();
        assert_eq!(*last, 1, "{slip}");
        assert!(before.iter().all(|count| *count == 0), "{slip}: {counts:?}");
    }
}

#[test]
fn there_is_an_example_of_each() {
    assert_eq!(TOLD.map(|(slip, _)| slip), *Slip::ALL);
}

#[test]
fn a_slip_made_again_is_told_again() {
    let script = "vwrite 0 10 1;inputs 0 2;irq;irq;inputs 0 0;irq;inputs 0 2;irq";
    let lines = script.split(';').map(str::as_bytes);
    let (counts, _) = counts(lines, &name(Slip::DisabledAnswered));
    assert_eq!(counts, [0, 0, 1, 1, 0, 0, 0, 1]);
}

#[test]
fn random_scripts_tell_every_reading() {
    let mut random = Random::new(17);
    let script: Vec<Vec<u8>> = (0..200)
        .flat_map(|_| scripts::interrupts::random_script(&mut random))
        .collect();
    let (_, tally) = counts(script.iter().map(Vec::as_slice), "");
    for slip in Slip::ALL {
        assert!(tally.count(&name(*slip)) > 0, "{slip}");
    }
}
