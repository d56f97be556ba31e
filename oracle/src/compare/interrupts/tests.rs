//! What is counted of a script.

use super::*;

fn counted(script: &str) -> Tally {
    let (mut console, mut watch, mut tally) = (Console::new(), Watch::default(), Tally::default());
    for line in script.lines().map(str::as_bytes) {
        let answer = console.take(line).unwrap();
        watch.count(&mut tally, line, &answer, &console);
    }
    tally
}

#[test]
fn each_access_by_its_register() {
    let tally = counted(
        "vread 0 30\nvread 1 13c\nvwrite 1 13c 5\nvwrite 0 200 5\nvread 0 201\nvread 1 2c\n\
         vwrite 1 240 1\nvread 0\nirq\n",
    );
    for kind in [
        "VIC0_VAR read",
        "VIC1_VA15R read",
        "VIC1_VA15R written",
        "VIC0_VC0R written",
        "VIC0 no multiple of 4, read",
        "VIC1 between registers, read",
        "VIC1 past 23Ch, written",
        NO_CALL,
    ] {
        assert_eq!(tally.count(kind), 1, "{kind}");
        assert!(least(kind).is_some(), "{kind}");
    }
    assert_eq!(tally.count(CALLS), 8);
}

#[test]
fn takes_by_source_and_depth() {
    // Of VIC1 without a slot and with one, the bench's line, a software interrupt by slot, none.
    let tally = counted(
        "vwrite 0 10 ffff\nvwrite 1 10 ffff\nvwrite 1 200 23\nvwrite 0 200 24\nvread 0 30\n\
         inputs 1 2\nirq\nvread 0 30\nvread 1 30\ninputs 1 8\nirq\nvread 0 30\nwrite 4 1\nirq\n\
         vread 0 30\nvread 1 30\nvwrite 0 18 10\nirq\nvread 0 30\nirq\nvread 0 30\n\
         vwrite 1 30 0\nvwrite 0 30 0\nvwrite 0 30 0\nvwrite 0 30 0\n",
    );
    for (kind, count) in [
        ("VIC0_VAR read with nothing raised", 1),
        ("VIC0_VAR read with all raised masked by service", 1),
        ("irq, VIC1 without a slot", 1),
        ("irq, VIC1 by slot", 1),
        ("irq, VIC0 without a slot", 1),
        ("irq, VIC0 by slot", 1),
        ("irq, none", 1),
        ("irq of a software interrupt alone", 1),
        ("interrupt taken, VIC1 without a slot", 1),
        ("interrupt taken, VIC1 by slot", 1),
        ("interrupt taken, VIC0 without a slot", 1),
        ("interrupt taken, VIC0 by slot", 1),
        ("interrupt taken, the bench's line", 1),
        ("interrupt taken, a software interrupt alone", 1),
        ("interrupt taken at depth  1 to  1", 1),
        ("interrupt taken at depth  4 to  4", 1),
        ("interrupt taken, five deep or deeper", 0),
        ("VIC1_VAR read, the last taken from VIC1", 1),
        ("VIC1_VAR read, the last taken from VIC0", 1),
        ("VIC1_VAR written, the last taken from VIC0", 1),
        ("VIC0_VAR written, the last taken from VIC0", 2),
        ("VIC0_VAR written, the last taken from VIC1", 1),
    ] {
        assert_eq!(tally.count(kind), count, "{kind}");
        assert!(least(kind).is_some(), "{kind}");
    }
}

#[test]
fn the_fifth_is_deep() {
    let mut script = String::from("vwrite 0 10 ffff\n");
    for input in (0..6).rev() {
        script += &format!("inputs 0 {:x}\nvread 0 30\n", 1 << input);
    }
    script += "new 0 64\nvwrite 0 10 ffff\ninputs 0 1\nvread 0 30\n";
    let tally = counted(&script);
    assert_eq!(tally.count("interrupt taken, five deep or deeper"), 2);
    assert_eq!(tally.count("interrupt taken at depth  1 to  1"), 2);
}

#[test]
fn names_are_one_for_each_kind() {
    let mut all: Vec<String> = names().map(|(name, _)| name).collect();
    let count = all.len();
    all.sort();
    all.dedup();
    assert_eq!(all.len(), count);
}
