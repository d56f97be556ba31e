use super::*;
use crate::check;
use crate::hex;

/// What a script's lines count.
fn counted(script: &str) -> Tally {
    let mut console = Console::new();
    let mut watch = Watch::default();
    let mut tally = Tally::default();
    for line in script.lines() {
        if let Some(answer) = console.take(line.as_bytes()) {
            watch.count(&mut tally, line.as_bytes(), &answer, &console);
        }
    }
    tally
}

/// A window for both engines: three descriptors at 0, 10 and 20 with 64 bytes each, their next words
/// with these low bits, the first of them granted.
fn window(bits: [u32; 3]) -> String {
    let words = (0..3).flat_map(|place: u32| {
        let next = (16 * ((place + 1) % 3)) | bits[place as usize];
        let status = if place == 0 { 1 << 16 } else { 0 };
        [64 | 1 << 14, 0x100 + 64 * place, next, status]
    });
    let table: Vec<u8> = words.flat_map(u32::to_le_bytes).collect();
    format!("new 0 1024\npoke 0 {}\n", hex::write(&table))
}

fn frame() -> String {
    hex::write(&check::closed(&[0xFF; 60]))
}

#[test]
fn the_four_kinds_by_their_engines() {
    let frame = format!("frame {}\n", frame());
    let receiving = format!("write 1c 11\nwrite 10 5\n{frame}{frame}");
    let sending = "write 3c 10\nwrite 30 5\nsend 1518\nsend 1518\n";
    let tally = counted(&format!("{}{receiving}{sending}", window([0; 3])));
    assert_eq!(tally.count("8 on receiving with polling"), 2);
    assert_eq!(tally.count("8 on receiving without polling"), 0);
    assert_eq!(tally.count("8 on sending with polling"), 0);
    assert_eq!(tally.count("8 on sending without polling"), 1);
}

#[test]
fn runs_and_bursts_count_by_their_last_place() {
    for (bits, with, without) in [(0, 0, 1), (1, 1, 0)] {
        let lines = "write 3c 0\nwrite 30 5\nrun 9 9000\n";
        let tally = counted(&format!("{}{lines}", window([bits; 3])));
        assert_eq!(tally.count("8 on sending with polling"), with);
        assert_eq!(tally.count("8 on sending without polling"), without);
        let burst = format!("burst 3 {}{}", frame(), " 0 64".repeat(3));
        let lines = format!("write 1c 0\nwrite 10 5\n{burst}\n");
        let tally = counted(&format!("{}{lines}", window([bits; 3])));
        assert_eq!(tally.count("8 on receiving with polling"), 2 * with);
        assert_eq!(tally.count("8 on receiving without polling"), without);
        let behind = tally.count("3 behind an 8 that stopped receiving");
        assert_eq!(behind, without);
    }
}

#[test]
fn what_comes_behind() {
    let stopped =
        "write 3c 10\nwrite 30 5\nsend 1518\nsend 1518\ngrant 10\nsend 1518\nwrite 30 5\n\
                   send 1518\n";
    let tally = counted(&format!("{}{stopped}", window([0; 3])));
    assert_eq!(tally.count("3 behind an 8 that stopped sending"), 2);
    assert_eq!(tally.count("start behind an 8 that stopped sending"), 1);
    assert_eq!(tally.count("0 behind an 8 that did not stop sending"), 0);
    let looked = "write 3c 11\nwrite 30 5\nsend 1518\ngrant 10\nsend 1518\nsend 1518\n";
    let tally = counted(&format!("{}{looked}", window([0; 3])));
    assert_eq!(tally.count("0 behind an 8 that did not stop sending"), 1);
    assert_eq!(tally.count("3 behind an 8 that stopped sending"), 0);
    // A new bench has nothing behind it.
    let anew = "write 3c 10\nwrite 30 5\nsend 1518\nnew 0 64\nsend 1518\nwrite 30 5\n";
    let tally = counted(&format!("{}{anew}", window([0; 3])));
    assert_eq!(tally.count("3 behind an 8 that stopped sending"), 0);
    assert_eq!(tally.count("start behind an 8 that stopped sending"), 0);
}

#[test]
fn behind_a_cleared_dma_enable_an_8_tells_nothing() {
    let frame = format!("frame {}\n", frame());
    let stopped = format!("{}write 1c 10\nwrite 10 5\n{frame}", window([0; 3]));
    for (between, wanted) in [
        ("", (1, 0)),
        ("write 10 1\n", (1, 0)),
        ("write 30 0\n", (1, 0)),
        ("write 10 0\n", (0, 0)),
        ("write 10 4\n", (0, 0)),
        ("write 10 5\n", (0, 1)),
        ("write 10 0\nwrite 10 5\n", (0, 0)),
    ] {
        let tally = counted(&format!("{stopped}{between}{frame}"));
        let behind = tally.count("3 behind an 8 that stopped receiving");
        let started = tally.count("start behind an 8 that stopped receiving");
        assert_eq!((behind, started), wanted, "{between}");
    }
}

#[test]
fn slips_by_the_bit_that_a_wrong_model_would_read() {
    // Led to 10 by the first next word; the register and the word there have the other bit.
    let lines = "write 3c 1\nwrite 30 5\nsend 1518\nsend 1518\n";
    let tally = counted(&format!("{}{lines}", window([0, 1, 0])));
    let kind = "8 on sending without polling";
    let count = |tally: &Tally, slip: &str| tally.count(&format!("{kind}: {slip}"));
    assert_eq!(count(&tally, "the register has the other bit"), 1);
    assert_eq!(count(&tally, "the next word there has the other bit"), 1);
    assert_eq!(count(&tally, "the word that led there has it by now"), 0);
    // The word that led there changed behind the move.
    let lines = "write 3c 0\nwrite 30 5\nsend 1518\npoke 8 11\nsend 1518\n";
    let tally = counted(&format!("{}{lines}", window([0; 3])));
    assert_eq!(count(&tally, "the register has the other bit"), 0);
    assert_eq!(count(&tally, "the next word there has the other bit"), 0);
    assert_eq!(count(&tally, "the word that led there has it by now"), 1);
}

#[test]
fn rings_that_want_polling_bits_alone() {
    // A ring of one in a window of its own: buffer behind it, next word at 8.
    let ring = |next: &str, asked: &str| {
        counted(&format!(
            "new 0 2048\npoke 0 ee45000010000000{next}000000\nring {asked}\n"
        ))
    };
    assert_eq!(ring("00", "1 0").count("ring no, for one polling bit"), 1);
    assert_eq!(ring("02", "1 0").count("ring no, for one polling bit"), 1);
    for (next, asked) in [("01", "1 0"), ("00", "2 0"), ("04", "1 0"), ("00", "1 4")] {
        let tally = ring(next, asked);
        assert_eq!(tally.count("ring no, for one polling bit"), 0, "{asked}");
        assert_eq!(tally.count("ring no, for more polling bits"), 0, "{asked}");
    }
}

#[test]
fn every_kind_has_a_least() {
    let mut tally = Tally::default();
    expect(&mut tally);
    assert_eq!(least("8 on sending without polling"), Some(1_000));
    assert_eq!(least("start behind an 8 that stopped sending"), Some(500));
    assert_eq!(least("ring no, for one polling bit"), None);
    let missing = tally.missing(|kind| least(kind).unwrap_or(0));
    assert_eq!(missing.len(), 4 + 6);
}
