//! Targets for both programs: the name of the file that is made, and what is in the folder before.
//! `in` is a file that the program is given.

use crate::compare::{Comparison, ALSO, IN};
use crate::expected;
use oracle::capture::{header, record, Time};
use oracle::files::target::{self, rows};
use oracle::files::{Contents, Entry};
use oracle::programs::Ended;
use oracle::random::Random;
use oracle::tapes::Tape;
use oracle::trace::{Event, Header};

/// Names that can be made into a file.
const MADE: &str = "
    plain                             | out             |
    in a folder                       | folder/out      |
    through a folder                  | folder//..//out |
    whole path                        | {home}/out      |
    odd name                          | m\u{e9}moire #1's |
    name like an option               | --help          |
    name of one dash                  | -               |
    name of dots                      | ...             |
    in a linked folder                | way/out         | way -> folder
    above a linked folder             | way/../out      | way -> folder/below
    beside files of other ends        | out             | *.tmp, *.new, *.new00, *~, *.bak
    beside a file .new00              | out             | .new00
    beside files .new00 to .new03     | out             | .new00, .new01, .new02, .new03
    beside an empty folder .new00     | out             | .new00/
    beside a folder .new00            | out             | .new00/, .new00/inside
    beside a link .new00 to a file    | out             | .new00 -> other
    beside a link .new00 to a folder  | out             | .new00 -> folder
    beside a link .new00 to nothing   | out             | .new00 -> none
    beside a link .new00 to itself    | out             | .new00 -> .new00
    beside a link .new00 to the input | out             | .new00 -> in
    beside a link .new00 to its name  | out             | .new00 -> out
    in a folder, beside files .new00  | folder/out      | .new00, folder/.new00
    named .new00                      | .new00          |
    named .new01                      | .new01          |
    in a folder .new00                | .new00/.new00   | .new00/
    named as the input's .new00       | in.new00        |
    the input itself                  | in              |
    the input itself, with a dot      | ./in            |
    the input through a folder        | folder/../in    |
    the input by its whole path       | {home}/in       |
    a link to the input               | out             | out -> in
    a link to a file                  | out             | out -> other
    a link to a link to a file        | out             | out -> way, way -> folder/inside
    a link in a linked folder         | way/up          | way -> folder, folder/up -> ../other
    a link to nothing                 | out             | out -> none
    a link to nothing in a folder     | out             | out -> folder/none
    a link into no folder             | out             | out -> none/none
    a link through a file             | out             | out -> other/
    a link to a link to nothing       | out             | out -> way, way -> none
    a link to itself                  | out             | out -> out
    a link to a name .new00           | out             | out -> .new00
    255 characters                    | {255}           |
    255 characters in a folder        | folder/{255}    |
";

/// A folder, or a link that leads to one: no file replaces it.
const FOLDERS: &str = "
    a folder                          | folder          |
    an empty folder                   | folder/below    |
    the folder itself                 | .               |
    the folder above                  | folder/..       |
    a folder by a slash               | folder/         |
    an empty folder by a slash        | folder/below/   |
    a folder by a slash and dot       | folder/.        |
    a link to a folder                | out             | out -> folder
    a link to an empty folder         | out             | out -> folder/below
    a link to a folder's slash        | out             | out -> folder/
    a link to a closed folder         | out             | out -> closed, closed!
    a link to its own folder          | out             | out -> .
    a link to the folder above        | folder/way      | folder/way -> ..
    a link to a link to a folder      | out             | out -> next, next -> folder
    a linked folder by a slash        | way/            | way -> folder
    .new00, a link to a folder        | .new00          | .new00 -> folder
";

/// Other names that cannot be made.
const NOT_MADE: &str = "
    in no folder                      | none/out        |
    through no folder                 | none/../out     |
    with a slash                      | out/            |
    a file with a slash               | other/          |
    the input with a slash            | in/             |
    in a file                         | other/out       |
    in the input                      | in/out          |
    through a file                    | other/../out    |
    behind a link to nothing          | way/out         | way -> none
    behind a link to itself           | way/out         | way -> way
    a link to nothing by a slash      | way/            | way -> none
    a link to a file by a slash       | way/            | way -> other
    without a name                    |                 |
    256 characters                    | {256}           |
    256 characters in a folder        | folder/{256}    |
";

/// Names of the memory that an export is given beside its input.
const MEMORY_MADE: &str = "
    beside a link .new00 to memory    | out             | .new00 -> also
    named as the memory's .new00      | also.new00      |
    the memory itself                 | also            |
    the memory itself, with a dot     | ./also          |
    the memory through a folder       | folder/../also  |
    the memory by its whole path      | {home}/also     |
    a link to the memory              | out             | out -> also
    a link to a link to the memory    | out             | out -> way, way -> also
    the memory in a linked folder     | way/also        | way -> .
";

const MEMORY_NOT_MADE: &str = "
    the memory with a slash           | also/           |
    in the memory                     | also/out        |
    a link to the memory by a slash   | way/            | way -> also
";

/// The same where a folder without the right to write refuses a user.
const CLOSED: &str = "
    in a closed folder                | closed/out      | closed!
";

pub type Target = target::Target<1>;

pub fn all() -> Vec<Target> {
    [MADE, FOLDERS, NOT_MADE].map(rows).concat()
}

/// Those of an export alone.
pub fn of_memory() -> Vec<Target> {
    [MEMORY_MADE, MEMORY_NOT_MADE].map(rows).concat()
}

/// Those for a user who may not write everywhere.
pub fn closed() -> Vec<Target> {
    rows(CLOSED)
}

/// A target, most often one that can be made, and often the plain one.
pub fn random(random: &mut Random) -> Target {
    let targets = match random.below(2) {
        0 => rows(MADE),
        _ => all(),
    };
    match random.below(2) {
        0 => targets[0],
        _ => random.pick(&targets),
    }
}

/// Both programs into every target, with an old file there and without; and with something that is
/// refused.
pub fn compare(comparison: &mut Comparison) -> Result<(), String> {
    let random = &mut Random::new(0x7A46);
    let mut targets = all();
    match comparison.folder.can_be_closed() {
        true => {
            expected::expect_closed(&mut comparison.tally);
            targets.extend(closed());
        }
        false => comparison.tally.met(expected::CLOSED_LEFT_OUT),
    }
    let (trace, memory) = day(14);
    let pcap = pcap(60);
    for target in targets.iter().copied().chain(of_memory()) {
        for old in [false, true] {
            let inputs = comparison.with(&[(IN, &trace), (ALSO, &memory)]);
            into(comparison, target, inputs, old, random, export)?;
        }
    }
    for target in targets {
        for old in [false, true] {
            let inputs = comparison.with(&[(IN, &pcap)]);
            into(comparison, target, inputs, old, random, import)?;
        }
    }
    // What is refused leaves an old file, or an input, where one could be made in its place.
    for target in [MADE, MEMORY_MADE].map(rows).concat() {
        let old = target.can_be_old(&inputs());
        let both = comparison.with(&[(IN, &trace[1..]), (ALSO, &memory)]);
        into(comparison, target, both, old, random, export)?;
    }
    for target in rows(MADE) {
        let old = target.can_be_old(&inputs());
        let input = comparison.with(&[(IN, &pcap[1..])]);
        into(comparison, target, input, old, random, import)?;
    }
    Ok(())
}

fn export(comparison: &mut Comparison, name: &str, before: &Contents) -> Result<Ended, String> {
    comparison.export(&[IN, ALSO, name], before)
}

fn import(comparison: &mut Comparison, name: &str, before: &Contents) -> Result<Ended, String> {
    comparison.import(&[IN, name, "20000000", "4096"], before)
}

/// Runs a program into a target beside its inputs, where it can be had with an old file.
pub fn into(
    comparison: &mut Comparison,
    target: Target,
    inputs: Contents,
    old: bool,
    random: &mut Random,
    run: impl FnOnce(&mut Comparison, &str, &Contents) -> Result<Ended, String>,
) -> Result<Option<Ended>, String> {
    let Some(place) = target.place(inputs, [old], random) else {
        return Ok(None);
    };
    let [name] = &place.names;
    let ended = run(comparison, name, &place.before)
        .map_err(|difference| format!("{difference}\ntarget: {}", target.kind))?;
    // What is refused does not come as far as the target.
    if !ended.output.starts_with("refused") {
        comparison
            .tally
            .met(expected::target_name(target.kind, old));
    }
    Ok(Some(ended))
}

/// A small day that sends one frame of this many bytes: a window of 2,048 bytes at 100 hex, a send
/// descriptor at its front, and the bytes behind it.
pub fn day(sent: usize) -> (Vec<u8>, Vec<u8>) {
    let header = Header {
        base: 0x100,
        length: 2_048,
    };
    let words = [sent as u32, 0x110, 0, 0x1_0000];
    let mut memory: Vec<u8> = words.iter().flat_map(|word| word.to_le_bytes()).collect();
    memory.extend([0xFF; 6]);
    memory.resize(2_048, 0x11);
    let write = |offset, value| Event::Write { offset, value };
    let events = [write(0x3C, 0x100), write(0x30, 5), Event::Send];
    let tape = Tape::new("by hand", header, memory.clone(), &events);
    (tape.bytes, memory)
}

/// A capture of one record of this many bytes.
pub fn pcap(length: usize) -> Vec<u8> {
    let time = Time {
        seconds: 1,
        microseconds: 2,
    };
    let record = record::made(time, &vec![0x5A; length]);
    [header::made().to_vec(), record].concat()
}

/// A folder with both inputs, for what can be there before.
pub fn inputs() -> Contents {
    let mut contents = Contents::new("/home");
    contents.put(IN, Entry::File(vec![1]));
    contents.put(ALSO, Entry::File(vec![2]));
    contents
}

#[cfg(test)]
mod tests {
    use super::*;
    use oracle::programs::{export_capture, import_capture};

    #[test]
    fn what_can_be_made_and_what_cannot() {
        let random = &mut Random::new(17);
        let (trace, memory) = day(14);
        let not_made = [FOLDERS, NOT_MADE, MEMORY_NOT_MADE, CLOSED];
        for table in [MADE, MEMORY_MADE].into_iter().chain(not_made) {
            let can = !not_made.contains(&table);
            for target in rows::<1>(table) {
                for old in [false, true] {
                    let mut inputs = inputs();
                    inputs.put(IN, Entry::File(trace.clone()));
                    inputs.put(ALSO, Entry::File(memory.clone()));
                    let Some(place) = target.place(inputs, [old], random) else {
                        assert!(old, "{}", target.kind);
                        continue;
                    };
                    let words = [IN, ALSO, &place.names[0]].map(String::from);
                    let ended = export_capture::run(&words, &place.before);
                    let made = ended.output == "exported 1\n";
                    assert_eq!(made, can, "{} {old}", target.kind);
                    assert_eq!(ended.after != place.before, made, "{}", target.kind);
                }
            }
        }
    }

    #[test]
    fn the_capture_is_one() {
        let imported = import_capture::import(&pcap(60), 0, 64);
        assert_eq!(
            imported.map(|made| made.output),
            Ok("imported 1\ntime 1 2\n".to_string())
        );
    }
}
