//! Whole outputs by hand.

use super::record::{make, record, Files};
use super::replay::output;
use super::{record, replay, BLOCKS_MOST, ROOM};
use crate::console;
use crate::files::{Contents, Entry};
use crate::random::Random;
use crate::recording;
use crate::scripts::days::random_day;

/// A window of 64 bytes at 100 hex; a send descriptor at 110 for the 14 bytes at 130, no next.
const DAY: &str =
    "new 100 64\npoke 110 0e000000300100000000000000000100\npoke 130 0102030405060708\n\
                   write 3c 110\nwrite 30 5\nsend 1518\nsend 1518\ngrant 102\nframe 00\n";

#[test]
fn a_day_recorded_and_replayed() {
    let recorded = record(DAY.as_bytes());
    assert_eq!(recorded.line, "recorded 6 1\n");
    let files = recorded.files.unwrap();
    let sent = "0102030405060708000000000000";
    let text = output(&files.trace, &files.memory);
    let lines: Vec<&str> = text.lines().collect();
    assert_eq!(lines[..3], ["window 00000100 64", "write 0", "write 0"]);
    assert!(lines[3].starts_with(&format!("send 0 {sent}{}", "00".repeat(46))));
    assert_eq!(lines[3].len(), "send 0 ".len() + 128);
    assert_eq!(lines[4..7], ["send 3 -", "grant 13", "frame 3"]);
    assert_eq!(lines[7], "state 0 00000000 0 00000110");
    assert!(lines[8].starts_with("check "));
    assert_eq!(lines.len(), 9);
    assert!(text.ends_with('\n'));
}

#[test]
fn memory_of_another_length() {
    let files = record(DAY.as_bytes()).files.unwrap();
    for memory in [&[][..], &[0; 63], &[0; 65], &[0; 200_000]] {
        let text = output(&files.trace, memory);
        let lines: Vec<&str> = text.lines().skip(1).collect();
        assert_eq!(lines[..2], ["write 0", "write 0"]);
        assert_eq!(
            lines[2..6],
            ["send 11 -", "send 11 -", "grant 11", "frame 11"]
        );
        // The CRC-32 of 64 zeros.
        assert_eq!(lines[7], "check 758d6336");
    }
}

#[test]
fn refusals() {
    assert_eq!(record(b"new 0 64\nstate\n").line, "error 2\n");
    assert!(record(b"").files.is_none());
    assert_eq!(output(&[], &[]), "refused 17 0\n");
    assert_eq!(output(&[0; 512], &[]), "refused 20 0\n");
    // Block 0 of zeros has a used length of 0; a byte over the room comes before it.
    assert_eq!(output(&vec![0; ROOM], &[]), "refused 20 0\n");
    assert_eq!(output(&vec![0; ROOM + 1], &[]), "refused 23\n");
}

#[test]
fn the_room_of_a_recording() {
    let script = |sends| format!("new 0 64\n{}", "send 1518\n".repeat(sends));
    let most = 504 * BLOCKS_MOST - 6;
    let recorded = record(script(most).as_bytes());
    assert_eq!(recorded.line, format!("recorded {most} 4096\n"));
    assert_eq!(record(script(most + 1).as_bytes()).line, "refused 28\n");
}

/// A folder and what is in it: a file, a folder, links to both, to a link and to nothing.
fn before() -> Contents {
    let mut before = Contents::new("/home");
    before.put("file", Entry::File(vec![9]));
    before.put("folder", Entry::Folder);
    before.put("to-file", Entry::Link("file".to_string()));
    before.put("to-folder", Entry::Link("folder".to_string()));
    before.put("to-link", Entry::Link("to-folder".to_string()));
    before.put("to-nothing", Entry::Link("none".to_string()));
    before
}

#[test]
fn both_files_are_made() {
    let files = Files {
        trace: vec![1],
        memory: vec![2],
    };
    for (names, places) in [
        (["a", "b"], ["a", "b"]),
        (["file", "./b"], ["file", "b"]),
        (["folder/a", "to-folder/b"], ["folder/a", "folder/b"]),
        (["a", "folder/a"], ["a", "folder/a"]),
        // A link is replaced by the file: then the two are two files.
        (["file", "to-file"], ["file", "to-file"]),
        (["to-file", "file"], ["to-file", "file"]),
        (["to-nothing", "none"], ["to-nothing", "none"]),
        (["none", "to-nothing"], ["none", "to-nothing"]),
        (["to-link/a", "to-folder/b"], ["folder/a", "folder/b"]),
    ] {
        let mut wanted = before();
        wanted.put(places[0], Entry::File(vec![1]));
        wanted.put(places[1], Entry::File(vec![2]));
        assert_eq!(make(&before(), names, &files), Ok(wanted), "{names:?}");
    }
}

#[test]
fn the_first_that_cannot_be_made() {
    let files = Files {
        trace: vec![1],
        memory: vec![2],
    };
    for (names, wrong) in [
        (["", ""], 0),
        (["folder", "none/b"], 0),
        (["a", "none/b"], 1),
        (["a", "folder"], 1),
        // Two names of one place.
        (["a", "a"], 1),
        (["a", "./a"], 1),
        (["folder/../file", "file"], 1),
        (["to-folder/a", "folder/a"], 1),
        (["/home/a", "a"], 1),
        // One behind the other.
        (["a", "a/b"], 1),
        (["a/b", "a"], 0),
        // A link to a folder, wherever the other one is.
        (["to-folder", "b"], 0),
        (["a", "to-folder"], 1),
        (["to-link", "b"], 0),
        (["a", "to-link"], 1),
        (["to-nothing", "to-link"], 1),
        (["to-folder", "to-folder"], 0),
        (["to-folder", "to-folder/b"], 0),
        (["to-folder", "to-folder/../b"], 0),
        (["to-folder", "none/b"], 0),
        (["to-folder/b", "to-folder"], 1),
        (["folder/b", "to-link"], 1),
        (["to-link/b", "to-folder"], 1),
        // A folder by a slash, of its own or of a link's name.
        (["folder/", "b"], 0),
        (["a", "folder/"], 1),
        (["to-folder/", "b"], 0),
        (["a", "to-link/"], 1),
        (["a", "to-nothing/"], 1),
    ] {
        assert_eq!(make(&before(), names, &files), Err(wrong), "{names:?}");
    }
}

#[test]
fn one_file_cannot_be_both_even_if_they_are_alike() {
    let files = Files {
        trace: vec![1],
        memory: vec![1],
    };
    for names in [["a", "a"], ["a", "folder/../a"], ["to-link/a", "folder/a"]] {
        assert_eq!(make(&before(), names, &files), Err(1), "{names:?}");
    }
    assert!(make(&before(), ["a", "b"], &files).is_ok());
}

#[test]
fn files_that_are_too_long() {
    let files = Files {
        trace: vec![1; 512],
        memory: vec![2; 600],
    };
    for (longest, made) in [(511, Err(0)), (512, Err(1)), (599, Err(1)), (600, Ok(()))] {
        let mut before = before();
        before.longest = Some(longest);
        assert_eq!(make(&before, ["a", "b"], &files).map(|_| ()), made);
        // What is wrong with the first comes before what is wrong with the second.
        assert_eq!(make(&before, ["folder", "b"], &files).map(|_| ()), Err(0));
    }
}

#[test]
fn the_order_of_the_tests() {
    let words = |words: &[&str]| {
        words
            .iter()
            .map(|word| word.to_string())
            .collect::<Vec<_>>()
    };
    let good = b"new 0 64";
    let bad = b"old";
    for (arguments, script, output) in [
        (&["a"][..], &bad[..], record::USAGE),
        (&["a", "b", "c"], good, record::USAGE),
        (&["folder", "b"], bad, "error 1\n"),
        (&["folder", "b"], good, "error folder\n"),
        (&["to-folder", "b"], bad, "error 1\n"),
        (&["to-folder", "to-folder/b"], good, "error to-folder\n"),
        (&["to-folder/a", "to-folder"], good, "error to-folder\n"),
        (&["a", "./a"], good, "error ./a\n"),
        (&["a", "b"], good, "recorded 0 1\n"),
    ] {
        let ended = record::run(&words(arguments), script, &before());
        assert_eq!(ended.output, output);
        assert_eq!(ended.after == before(), !output.starts_with("recorded"));
    }
    for (arguments, output) in [
        (&["none"][..], replay::USAGE),
        (&["none", "file"], "error none\n"),
        (&["file", "none"], "error none\n"),
        (&["folder", "none"], "error folder\n"),
        (&["to-file", "file"], "refused 17 0\n"),
    ] {
        assert_eq!(replay::run(&words(arguments), &before()), output);
    }
}

#[test]
fn a_replay_writes_what_the_console_does() {
    let mut random = Random::new(15);
    for _ in 0..50 {
        let script = random_day(&mut random).join(&b'\n');
        let recording = recording::of(&script).unwrap();
        let text = output(&recording.trace(), &recording.image);
        let by_hand = [&script[..], b"\nstate\ncheck"].concat();
        let wanted: Vec<String> = console::output(&by_hand)
            .into_iter()
            .filter(|line| !line.starts_with("new ") && !line.starts_with("poke "))
            .collect();
        assert_eq!(text.lines().skip(1).collect::<Vec<_>>(), wanted);
    }
}
