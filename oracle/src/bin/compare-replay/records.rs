//! `record`: scripts of every kind into targets of every kind, and the day that it made replayed.

use crate::compare::{Comparison, Start};
use crate::expected;
use crate::scripts::{self, Made};
use crate::targets::{self, Place, Target, OLD};
use oracle::console;
use oracle::files::{Contents, Entry};
use oracle::random::Random;

/// The script of a seed into a target of its own; a day that is recorded is also replayed.
pub fn random(comparison: &mut Comparison, seed: u64) -> Result<(), String> {
    let random = &mut Random::new(!seed);
    let targets = match random.below(2) {
        0 => targets::made(),
        _ => targets::all(),
    };
    let script = scripts::random(seed);
    comparison.tally.met(expected::script_name(script.kind));
    let empty = comparison.folder.empty();
    let target = random.pick(&targets);
    let old = random.pick(&OLD);
    into(comparison, target, empty, old, &script, random)
}

/// Records one script into a target, where it can be had with these files there before.
pub fn into(
    comparison: &mut Comparison,
    target: Target,
    empty: Contents,
    old: [bool; 2],
    script: &Made,
    random: &mut Random,
) -> Result<(), String> {
    let name = expected::target_name(target.kind, old.contains(&true));
    match target.place(empty, old, random) {
        Some(place) => one(comparison, name, place, script)
            .map_err(|difference| format!("{difference}\n{}, {}", target.kind, shown(script))),
        None => Ok(()),
    }
}

/// Records one script over two files that were there.
pub fn over_old(comparison: &mut Comparison, script: &Made) -> Result<(), String> {
    let random = &mut Random::new(script.text.len() as u64);
    let empty = comparison.folder.empty();
    let plain = targets::made()[0];
    into(comparison, plain, empty, [true, true], script, random)
}

/// Records one script; where it is a good one, the target is met.
fn one(
    comparison: &mut Comparison,
    target: String,
    place: Place,
    script: &Made,
) -> Result<(), String> {
    let start = Start {
        arguments: place.names.to_vec(),
        input: &script.text,
        before: place.before,
    };
    let ended = comparison.record(&start)?;
    let first = ended.output.split(' ').next().unwrap_or_default();
    let named = |name: &String| ended.output == format!("error {name}\n");
    if first == "recorded" {
        comparison.tally.met(expected::RECORDED);
        comparison.tally.met(target);
        again(comparison, &start, script, ended.after)
    } else if place.names.iter().any(named) {
        comparison.tally.met(target);
        let second = named(&place.names[1]);
        let other = &place.names[usize::from(!second)];
        let there = start.before.read(other).is_some();
        comparison.tally.met(expected::not_made_name(second, there));
        Ok(())
    } else {
        comparison.tally.met(expected::record_name(first));
        Ok(())
    }
}

/// Replays the files that were made: the lines of its events are those of the console for the same
/// script, then its state and its check.
fn again(
    comparison: &mut Comparison,
    start: &Start,
    script: &Made,
    made: Contents,
) -> Result<(), String> {
    let by_hand = [&script.text[..], b"\nstate\ncheck\n"].concat();
    let lines = console::output(&by_hand);
    let new = console::lines(&script.text)
        .into_iter()
        .find_map(console::call);
    let Some(console::Call::New { base, length }) = new else {
        panic!("a recorded script begins with a new bench");
    };
    let mut output = format!("window {base:08x} {length}\n");
    for line in lines {
        if !line.starts_with("new ") && !line.starts_with("poke ") {
            output += &format!("{line}\n");
        }
    }
    comparison.tally.met(expected::REPLAYED);
    let again = Start {
        arguments: start.arguments.clone(),
        input: b"",
        before: made.clone(),
    };
    comparison.run(&comparison.replay, &again, &output, &made)
}

/// Every target with a good day, with every old file; every number of arguments.
pub fn made_by_hand(comparison: &mut Comparison) -> Result<(), String> {
    let random = &mut Random::new(0x4EC0);
    let script = Made {
        kind: "by hand",
        text: b"new 0 64\npoke 0 0102\nsend 1518\n".to_vec(),
    };
    let mut targets = targets::all();
    match comparison.folder.can_be_closed() {
        true => {
            expected::expect_closed(&mut comparison.tally);
            targets.extend(targets::closed());
        }
        false => comparison.tally.met(expected::CLOSED_LEFT_OUT),
    }
    for target in targets {
        for old in OLD {
            let empty = comparison.folder.empty();
            into(comparison, target, empty, old, &script, random)?;
        }
    }
    // Whatever the script is and whether there are such files.
    for words in [&[][..], &["a"], &["a", "b", "c"], &["a", "b", "c", "d"]] {
        for input in [&script.text[..], b"wrong", b""] {
            let mut before = comparison.folder.empty();
            before.put("a", Entry::File(vec![1]));
            let start = Start {
                arguments: words.iter().map(|word| word.to_string()).collect(),
                input,
                before,
            };
            comparison.tally.met(expected::record_name("usage"));
            comparison.record(&start)?;
        }
    }
    Ok(())
}

/// The script, its characters other than plain ones escaped.
fn shown(script: &Made) -> String {
    let text = script.text.escape_ascii().to_string();
    let text: String = text.chars().take(20_000).collect();
    format!("the script ({}): {text}", script.kind)
}
