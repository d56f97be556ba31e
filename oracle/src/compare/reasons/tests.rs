use super::*;
use crate::random::Random;
use crate::scripts::random_script;
use crate::{check, hex};

const OWN: [u8; 6] = [2, 0, 0, 0, 0, 1];
const ALL: [u8; 6] = [0xFF; 6];
/// Index 3: bit 3 of the low register.
const PAUSE: [u8; 6] = [0x01, 0x80, 0xC2, 0x00, 0x00, 0x01];

/// Filters: all-multicast, the hash with that bit, receive-all in both modes.
const MULTICAST: &str = "write 400 a0000\n";
const HASH: &str = "write 400 20000\nwrite 410 8\n";
const RECEIVE_ALL: &str = "write 400 80020000\nwrite 410 8\n";

/// What the wrong readings are called.
const READINGS: [&str; 12] = [
    "no bit at all",
    "bits 27 and 28 exchanged",
    "both bits for broadcast",
    "bit 28 by the address under receive-all",
    "bit 27 by the address under receive-all",
    "no bit for a group by hash",
    "bit 27 for the own address",
    "own before broadcast and group",
    "bits kept that stood beside VALID",
    "the old word kept by a grant",
    "bit 27 kept by a grant",
    "bit 28 kept by a grant",
];

/// What a script's lines count.
fn counted(script: &str) -> Tally {
    let mut console = Console::new();
    let mut watch = Watch::default();
    let mut tally = Tally::default();
    for line in script.lines() {
        watch.before(line.as_bytes(), &console);
        if let Some(answer) = console.take(line.as_bytes()) {
            watch.count(&mut tally, line.as_bytes(), &answer, &console);
        }
    }
    tally
}

/// A window for the station: a ring of three granted descriptors at 0, 10 and 20, polling, with 64
/// bytes each from 100 on.
fn window() -> String {
    let words = (0..3).flat_map(|place: u32| {
        let next = (16 * ((place + 1) % 3)) | 1;
        [64 | 1 << 14, 0x100 + 64 * place, next, 1 << 16]
    });
    let table: Vec<u8> = words.flat_map(u32::to_le_bytes).collect();
    format!(
        "new 0 1024\nwrite 408 2\nwrite 404 100\npoke 0 {}\nwrite 1c 1\nwrite 10 5\n",
        hex::write(&table)
    )
}

fn digits(destination: [u8; 6]) -> String {
    let mut message = [0x22; 60];
    message[..6].copy_from_slice(&destination);
    hex::write(&check::closed(&message))
}

fn frame(destination: [u8; 6]) -> String {
    format!("frame {}\n", digits(destination))
}

fn burst(destinations: &[[u8; 6]]) -> String {
    let store: String = destinations.iter().copied().map(digits).collect();
    let pairs: String = (0..destinations.len())
        .map(|place| format!(" {} 64", 64 * place))
        .collect();
    format!("burst {} {store}{pairs}\n", destinations.len())
}

fn by_taken(tally: &Tally, front: &str) -> [usize; 5] {
    Taken::ALL.map(|taken| tally.count(&format!("{front}: {taken}")))
}

/// The wrong readings that were told.
fn told(tally: &Tally) -> Vec<&'static str> {
    let is = |name: &&str| tally.count(&format!("status word seen that tells: {name}")) > 0;
    READINGS.into_iter().filter(is).collect()
}

#[test]
fn deliveries_by_why_they_were_taken() {
    for (filter, taken) in [
        ("", [1, 1, 0, 0, 0]),
        (MULTICAST, [1, 1, 1, 0, 0]),
        (HASH, [1, 1, 0, 1, 0]),
        (RECEIVE_ALL, [0, 0, 0, 0, 3]),
    ] {
        let frames = frame(OWN) + &frame(ALL) + &frame(PAUSE);
        let tally = counted(&format!("{}{filter}{frames}", window()));
        assert_eq!(by_taken(&tally, "delivered"), taken);
        assert_eq!(by_taken(&tally, "delivered alone"), taken);
        assert_eq!(by_taken(&tally, "delivered in a burst"), [0; 5]);
        let burst = burst(&[OWN, ALL, PAUSE]);
        let tally = counted(&format!("{}{filter}{burst}", window()));
        assert_eq!(by_taken(&tally, "delivered"), taken);
        assert_eq!(by_taken(&tally, "delivered alone"), [0; 5]);
        assert_eq!(by_taken(&tally, "delivered in a burst"), taken);
        assert_eq!(by_taken(&tally, "status word seen"), [0; 5]);
    }
}

#[test]
fn what_is_not_delivered_does_not_count() {
    let window = window();
    // Lost behind the third, refused for its answer list, not running, lent another length.
    let lost = format!("{window}{}{}", burst(&[OWN; 3]), frame(OWN));
    assert_eq!(by_taken(&counted(&lost), "delivered"), [3, 0, 0, 0, 0]);
    for before in ["write 10 0\n", "lend 1020\n"] {
        let script = format!("{window}{before}{}check\n", frame(OWN));
        assert_eq!(by_taken(&counted(&script), "delivered"), [0; 5]);
    }
    let refused = burst(&[OWN, ALL]).replace("burst 2", "burst 3");
    let tally = counted(&format!("{window}{refused}check\n"));
    assert_eq!(by_taken(&tally, "delivered"), [0; 5]);
    assert_eq!(by_taken(&tally, "status word seen"), [0; 5]);
}

#[test]
fn a_word_is_seen_where_all_of_it_is_looked_at() {
    for (look, seen) in [
        ("check\n", 1),
        ("peek c 4\n", 1),
        ("peek 0 1024\n", 1),
        ("peek b 6\n", 1),
        ("check\npeek c 4\n", 1),
        ("peek c 3\n", 0),
        ("peek d 4\n", 0),
        ("peek 1c 4\n", 0),
        ("peek 401 4\n", 0),
        ("show 0\nstate\nread 8\n", 0),
    ] {
        let tally = counted(&format!("{}{}{look}", window(), frame(ALL)));
        assert_eq!(by_taken(&tally, "status word seen"), [0, seen, 0, 0, 0]);
    }
    // A check shows every word of a burst.
    let tally = counted(&format!(
        "{}{HASH}{}check\n",
        window(),
        burst(&[OWN, ALL, PAUSE])
    ));
    assert_eq!(by_taken(&tally, "status word seen"), [1, 1, 0, 1, 0]);
}

#[test]
fn a_word_written_over_is_seen_no_more() {
    let delivered = window() + &frame(ALL);
    for between in [
        "grant 0\n",
        "poke c 40000010\n",
        "poke f 10\n",
        "new 0 1024\n",
    ] {
        let tally = counted(&format!("{delivered}{between}check\n"));
        assert_eq!(by_taken(&tally, "status word seen"), [0; 5], "{between}");
    }
    for between in ["poke 10 00\n", "poke b 00\n", "grant 4\n", "lend 5\n"] {
        let tally = counted(&format!("{delivered}{between}check\n"));
        let wanted = [0, 1, 0, 0, 0];
        assert_eq!(by_taken(&tally, "status word seen"), wanted, "{between}");
    }
    // The second frame comes to a descriptor at 200, whose buffer lies over the first one's.
    let chain = "poke 8 01020000\npoke 200 40400000000000000100000000000100\n";
    let over = format!("{}{chain}{}check\n", window(), burst(&[ALL, OWN]));
    let tally = counted(&over);
    assert_eq!(by_taken(&tally, "delivered"), [1, 1, 0, 0, 0]);
    assert_eq!(by_taken(&tally, "status word seen"), [1, 0, 0, 0, 0]);
}

#[test]
fn the_wrong_readings_that_a_delivery_tells() {
    let window = window();
    let seen = |filter: &str, destination| {
        told(&counted(&format!(
            "{window}{filter}{}peek c 4\n",
            frame(destination)
        )))
    };
    let [nothing, exchanged, both, by_28, by_27, by_hash, own_bit, own_first, kept, ..] = READINGS;
    assert_eq!(seen("", OWN), [own_bit]);
    assert_eq!(seen("", ALL), [nothing, exchanged, both]);
    assert_eq!(seen(MULTICAST, PAUSE), [nothing, exchanged]);
    assert_eq!(seen(HASH, PAUSE), [nothing, exchanged, by_hash]);
    assert_eq!(seen(RECEIVE_ALL, ALL), [by_28]);
    assert_eq!(seen(RECEIVE_ALL, PAUSE), [by_27]);
    assert_eq!(seen(RECEIVE_ALL, OWN), [""; 0]);
    let everybody = "write 408 ffffffff\nwrite 404 ffff\n";
    assert_eq!(seen(everybody, ALL), [nothing, exchanged, both, own_first]);
    let group = format!("write 408 c28001\n{MULTICAST}");
    assert_eq!(seen(&group, PAUSE), [nothing, exchanged, own_first]);
    assert_eq!(seen("poke c ffffffff\n", OWN), [own_bit, kept]);
    assert_eq!(seen("poke c ffffffe7\n", OWN), [own_bit]);
    // Nothing is told by a word that was not looked at.
    let unseen = format!("{window}{}show 0\n", frame(ALL));
    assert_eq!(told(&counted(&unseen)), [""; 0]);
}

#[test]
fn the_wrong_readings_that_a_grant_tells() {
    let [.., old, bit_27, bit_28] = READINGS;
    for (filter, destination, kept) in [
        ("", OWN, vec![old]),
        ("", ALL, vec![old, bit_28]),
        (MULTICAST, PAUSE, vec![old, bit_27]),
        (RECEIVE_ALL, ALL, vec![old]),
    ] {
        let granted = format!("{}{filter}{}grant 0\n", window(), frame(destination));
        assert_eq!(told(&counted(&format!("{granted}peek c 4\n"))), kept);
        assert_eq!(told(&counted(&format!("{granted}check\n"))), kept);
        assert_eq!(told(&counted(&granted)), [""; 0]);
        // Taken by the sender, which leaves zeros there.
        let sent = format!("{granted}write 30 5\nsend 1518\ncheck\n");
        assert_eq!(told(&counted(&sent)), [""; 0]);
        let again = format!("{granted}write 30 5\nsend 1518\ngrant 0\ncheck\n");
        assert_eq!(told(&counted(&again)), [""; 0]);
        // A new bench has had no delivery.
        let anew = format!(
            "{}{filter}{}new 0 1024\ngrant 0\ncheck\n",
            window(),
            frame(destination)
        );
        assert_eq!(told(&counted(&anew)), [""; 0]);
    }
}

#[test]
fn readings_by_the_bit_of_what_they_show() {
    let shown = |lines: &str| {
        let tally = counted(&format!("{}{HASH}{lines}", window()));
        ["27", "28"].map(|bit| tally.count(&format!("frame shown, bit {bit} set")))
    };
    let all = burst(&[OWN, ALL, PAUSE]);
    assert_eq!(shown(&format!("{all}show 0\n")), [0, 0]);
    assert_eq!(shown(&format!("{all}show 10\n")), [0, 1]);
    assert_eq!(shown(&format!("{all}show 20\nshow 20\n")), [2, 0]);
    // Granted again, written over, or not lent.
    for between in ["grant 10\n", "poke 1c 40\n", "lend 60\n"] {
        assert_eq!(shown(&format!("{all}{between}show 10\n")), [0, 0]);
    }
}

/// The comparison's scripts, in a small number: each kind is delivered both ways and seen, and every
/// wrong reading is told.
#[test]
fn random_scripts_show_every_kind() {
    let mut random = Random::new(17);
    let mut tally = Tally::default();
    let mut answered = 0;
    for _ in 0..400 {
        let mut console = Console::new();
        let mut watch = Watch::default();
        for line in random_script(&mut random) {
            watch.before(&line, &console);
            let Some(answer) = console.take(&line) else {
                continue;
            };
            watch.count(&mut tally, &line, &answer, &console);
            answered += match answer.strip_prefix("burst 0") {
                Some(answers) => answers.split(' ').filter(|word| *word == "0").count(),
                None => usize::from(answer == "frame 0"),
            };
        }
    }
    let delivered = by_taken(&tally, "delivered");
    assert_eq!(delivered.iter().sum::<usize>(), answered);
    assert!(delivered.iter().all(|count| *count > 100), "{delivered:?}");
    assert_eq!(told(&tally), READINGS);
    let shown = SHOWN.map(|(_, name)| tally.count(name));
    assert!(shown.iter().all(|count| *count > 10), "{shown:?}");
    for front in [
        "delivered alone",
        "delivered in a burst",
        "status word seen",
    ] {
        let counts = by_taken(&tally, front);
        assert!(counts.iter().all(|count| *count > 20), "{front} {counts:?}");
    }
}

#[test]
fn every_kind_has_a_least() {
    let mut tally = Tally::default();
    expect(&mut tally);
    assert_eq!(least("delivered: group by hash"), Some(2_000));
    assert_eq!(least("delivered alone: own"), Some(500));
    assert_eq!(least("status word seen: receive-all"), Some(2_000));
    assert_eq!(least("frame shown, bit 27 set"), Some(200));
    assert_eq!(least("status word seen that tells: no bit at all"), None);
    // Of five kinds four counts each, and the two bits shown; every reading stands there too.
    let missing = tally.missing(|kind| least(kind).unwrap_or(0));
    assert_eq!(missing.len(), 5 * 4 + 2);
    let all = tally.missing(|_| 1);
    assert_eq!(all.len(), 5 * 4 + 2 + READINGS.len());
    for reading in READINGS {
        let name = format!("status word seen that tells: {reading} (0 times, not 1)");
        assert!(all.contains(&name), "{name}");
    }
}
