//! Targets for `record`: two names, and what is in the folder before.

use oracle::files::target::{self, rows};

/// Names that can be made into two files.
const MADE: &str = "
    plain                               | day.trace     | day.memory      |
    in a folder                         | folder/a      | ./folder/b      |
    through a folder                    | folder/../a   | folder//..//b   |
    whole paths                         | {home}/a      | {home}/folder/b |
    odd names                           | a day's trace | m\u{e9}moire.#1 |
    names like options                  | -             | --help          |
    names of dots                       | ...           | .hidden         |
    one name in two folders             | a             | folder/a        |
    trace in a linked folder            | way/a         | b               | way -> folder
    memory above a linked folder        | a             | way/../b        | way -> folder/below
    beside files of other ends          | day.trace     | day.memory      | *.tmp, *.new, *.new00, *~, *.bak
    beside a file .new00                | day.trace     | day.memory      | .new00
    beside files .new00 to .new03       | day.trace     | day.memory      | .new00, .new01, .new02, .new03
    beside files .new01 and .new03      | day.trace     | day.memory      | .new01, .new03
    beside an empty folder .new00       | day.trace     | day.memory      | .new00/
    beside a folder .new00              | day.trace     | day.memory      | .new00/, .new00/inside
    beside a link .new00 to a file      | day.trace     | day.memory      | .new00 -> other
    beside a link .new00 to a folder    | day.trace     | day.memory      | .new00 -> folder
    beside a link .new00 to nothing     | day.trace     | day.memory      | .new00 -> none
    beside a link .new00 to itself      | day.trace     | day.memory      | .new00 -> .new00
    beside a link .new00 to the trace   | day.trace     | day.memory      | .new00 -> day.trace
    beside a link .new00 to the memory  | day.trace     | day.memory      | .new00 -> day.memory
    in a folder, beside files .new00    | folder/a      | b               | .new00, folder/.new00
    trace named .new00                  | .new00        | b               |
    memory named .new00                 | a             | .new00          |
    named .new00 and .new01             | .new00        | .new01          |
    named .new01 and .new00             | .new01        | .new00          |
    named .new02 and .new00             | .new02        | .new00          |
    named .new00, in two folders        | .new00        | folder/.new00   |
    trace in a folder .new00            | .new00/a      | b               | .new00/
    memory in a folder .new00           | a             | .new00/.new00   | .new00/
    memory named as the trace's .new00  | day           | day.new00       |
    trace named as the memory's .new00  | day.new00     | day             |
    trace a link to a file              | day.trace     | day.memory      | day.trace -> other
    memory a link to a file             | day.trace     | day.memory      | day.memory -> folder/inside
    trace a link to a link to a file    | day.trace     | day.memory      | day.trace -> way, way -> other
    memory a link to a link to a file   | day.trace     | day.memory      | day.memory -> way, way -> other
    memory a link in a linked folder    | a             | way/up          | way -> folder, folder/up -> ../other
    trace a link to nothing             | day.trace     | day.memory      | day.trace -> none
    memory a link to nothing            | day.trace     | day.memory      | day.memory -> none
    trace a link to nothing in a folder | day.trace     | day.memory      | day.trace -> folder/none
    memory a link into no folder        | day.trace     | day.memory      | day.memory -> none/none
    trace a link through a file         | day.trace     | day.memory      | day.trace -> other/
    trace a link to a link to nothing   | day.trace     | day.memory      | day.trace -> way, way -> none
    memory a link to a link to nothing  | day.trace     | day.memory      | day.memory -> way, way -> none
    trace a link to a name .new00       | day.trace     | day.memory      | day.trace -> .new00
    memory a link to a name .new01      | day.trace     | day.memory      | day.memory -> .new01
    both links to nothing               | day.trace     | day.memory      | * -> none
    both links to one file              | day.trace     | day.memory      | * -> other
    both links to themselves            | day.trace     | day.memory      | * -> *
    trace a link to the memory          | day.trace     | day.memory      | day.trace -> day.memory
    memory a link to the trace          | day.trace     | day.memory      | day.memory -> day.trace
    links to each other                 | a             | b               | a -> b, b -> a
    trace of 255 characters             | {255}         | b               |
    memory of 255 characters            | a             | folder/{255}    |
";

/// Names of which one is a folder, or a link that leads to one: no file replaces it.
const FOLDERS: &str = "
    trace a folder                      | folder        | b               |
    memory a folder                     | a             | folder          |
    memory an empty folder              | a             | folder/below    |
    memory a folder, trace a link       | a             | folder          | a -> other
    both folders                        | folder        | folder/below    |
    trace a folder, memory in it        | folder        | folder/b        |
    memory a folder, trace in it        | folder/a      | folder          |
    trace the folder itself             | .             | b               |
    memory the folder above             | a             | folder/..       |
    trace a folder by a slash           | folder/       | b               |
    memory a folder by a slash          | a             | folder/         |
    trace an empty folder by a slash    | folder/below/ | b               |
    memory an empty folder by a slash   | a             | folder/below/   |
    trace a folder by two slashes       | folder//      | b               |
    memory a folder by a slash and dot  | a             | folder/.        |
    both folders by a slash             | folder/       | folder/below/   |
    trace a folder/, memory in it       | folder/       | folder/b        |
    memory a folder/, trace in it       | folder/a      | folder/         |
    trace a linked folder by a slash    | way/          | b               | way -> folder
    memory a linked folder by a slash   | a             | way/            | way -> folder
    trace a twice linked folder, slash  | way/          | b               | way -> next, next -> folder
    memory a twice linked folder, slash | a             | way/            | way -> next, next -> folder
    trace a link to a folder            | way           | b               | way -> folder
    memory a link to a folder           | a             | way             | way -> folder
    trace a link to a folder's slash    | way           | b               | way -> folder/
    memory a link to an empty folder    | a             | way             | way -> folder/below
    trace a link to a closed folder     | way           | b               | way -> closed, closed!
    trace a link to its own folder      | way           | b               | way -> .
    memory a link to the folder above   | a             | folder/way      | folder/way -> ..
    trace a link to a link to a folder  | way           | b               | way -> next, next -> folder
    memory a link to a link to a folder | a             | way             | way -> next, next -> folder
    both links to folders               | a             | b               | a -> folder, b -> folder/below
    both links to one folder            | a             | b               | * -> folder
    both one link to a folder           | way           | way             | way -> folder
    memory to a folder, trace to a file | a             | way             | way -> folder, a -> other
    memory to a folder, trace nowhere   | a             | way             | way -> folder, a -> none
    trace to a folder, memory nowhere   | way           | b               | way -> folder, b -> none
    trace .new00, a link to a folder    | .new00        | b               | .new00 -> folder
    memory .new00, a link to a folder   | a             | .new00          | .new00 -> folder
    trace a link, memory behind it      | way           | way/b           | way -> folder
    trace a link, memory above it       | way           | way/../b        | way -> folder
    trace a link, memory where it leads | way           | folder/b        | way -> folder
    trace a link, memory by the next    | way           | next/b          | way -> next, next -> folder
    memory a link, trace behind it      | way/a         | way             | way -> folder
    memory a link, trace above it       | way/../a      | way             | way -> folder
    memory a link, trace where it leads | folder/a      | way             | way -> folder
    memory a link, trace leads over it  | way/a         | next            | way -> next, next -> folder
";

/// Other names of which one cannot be made, or not beside the other.
const NOT_MADE: &str = "
    trace in no folder                  | none/a        | b               |
    memory in no folder                 | a             | none/b          |
    both in no folder                   | none/a        | none/b          |
    trace through no folder             | none/../a     | b               |
    memory through no folder            | a             | none/../b       |
    memory in no folder, trace a link   | a             | none/b          | a -> none
    trace a link to nothing by a slash  | way/          | b               | way -> none
    memory a link to a file by a slash  | a             | way/            | way -> other
    trace with a slash                  | a/            | b               |
    memory with a slash                 | a             | b/              |
    trace a file with a slash           | other/        | b               |
    trace in a file                     | other/a       | b               |
    memory in a file                    | a             | other/b         |
    memory through a file               | a             | other/../b      |
    trace behind a link to nothing      | way/a         | b               | way -> none
    memory behind a link to itself      | a             | way/b           | way -> way
    trace without a name                |               | b               |
    memory without a name               | a             |                 |
    trace of 256 characters             | {256}         | b               |
    memory of 256 characters            | a             | {256}           |
    one file by one name                | a             | a               |
    one file with a dot                 | a             | ./a             |
    one file with a dot first           | ./a           | a               |
    one file through a folder           | a             | folder/../a     |
    one file through a folder first     | folder/../a   | a               |
    one file with two slashes           | folder/a      | folder//a       |
    one file by its whole path          | a             | {home}/a        |
    one file by its whole path first    | {home}/a      | a               |
    one file by a linked folder         | folder/a      | way/a           | way -> folder
    one file by a linked folder first   | way/a         | folder/a        | way -> folder
    one file by two linked folders      | way/a         | next/a          | way -> folder, next -> ./folder/
    one link to a file                  | way           | way             | way -> other
    one link to nothing, with a dot     | way           | ./way           | way -> none
    one link in a linked folder         | next/way      | folder/way      | next -> folder, folder/way -> inside
    memory behind the trace             | a             | a/b             |
    trace behind the memory             | a/b           | a               |
";

/// The same where a folder without the right to write refuses a user.
const CLOSED: &str = "
    trace in a closed folder            | closed/a      | b               | closed!
    memory in a closed folder           | a             | closed/b        | closed!
    both in a closed folder             | closed/a      | closed/b        | closed!
";

/// Two names: those of the trace and of the memory.
pub type Target = target::Target<2>;
pub type Place = target::Place<2>;

pub fn made() -> Vec<Target> {
    rows(MADE)
}

pub fn all() -> Vec<Target> {
    [MADE, FOLDERS, NOT_MADE].map(rows).concat()
}

pub fn closed() -> Vec<Target> {
    rows(CLOSED)
}

/// Which of the two are there before, as files.
pub const OLD: [[bool; 2]; 4] = [[false, false], [true, false], [false, true], [true, true]];

#[cfg(test)]
mod tests {
    use super::*;
    use oracle::files::Contents;
    use oracle::programs::record::{make, Files};
    use oracle::random::Random;

    #[test]
    fn what_can_be_made_and_what_cannot() {
        let files = Files {
            trace: vec![1; 2_000],
            memory: vec![2; 2_000],
        };
        let random = &mut Random::new(16);
        for table in [MADE, FOLDERS, NOT_MADE, CLOSED] {
            let can = table == MADE;
            for target in rows(table) {
                for old in OLD {
                    let Some(place) = target.place(Contents::new("/home"), old, random) else {
                        assert_ne!(old, OLD[0], "{}", target.kind);
                        continue;
                    };
                    let names = [&place.names[0][..], &place.names[1]];
                    let made = make(&place.before, names, &files);
                    assert_eq!(made.is_ok(), can, "{} {old:?}", target.kind);
                    // The kind says which one is wrong.
                    if let Err(wrong) = made {
                        let first = ["trace", "both"]
                            .iter()
                            .any(|word| target.kind.starts_with(word));
                        assert_eq!(wrong == 0, first, "{} {old:?}", target.kind);
                    }
                }
            }
        }
    }
}
