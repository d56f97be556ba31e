//! Scripts at their limits: of lines and their ends, of windows, of single words.

use crate::compare::Comparison;
use crate::expected;
use crate::records;
use crate::scripts::Made;

/// What a script is about, and its text.
const SCRIPTS: [(&str, &str); 28] = [
    ("nothing", ""),
    ("one line feed", "\n"),
    ("one comment", "#"),
    ("comments and empty lines", "\n\n# nothing"),
    ("comments, their last line feed too", "# a\n# b\n"),
    ("new alone", "new 0 64"),
    ("carriage returns", "new 0 64\r\nsend 1518\r\n"),
    (
        "carriage returns in comments",
        "#\r\nnew 0 64\n# a\r\nsend 1518\n#\r",
    ),
    ("carriage returns for line feeds", "new 0 64\rsend 1518\r"),
    (
        "wrong line behind comments",
        "\n#\n\nnew 0 64\n\n#\nhello\n",
    ),
    ("wrong line before new", "hello\nnew 0 64\n"),
    ("event before new", "#\nsend 1518\nnew 0 64\n"),
    ("poke before new", "poke 0 00\nnew 0 64\n"),
    ("window of 60", "new 0 60\n"),
    ("window of 66", "new 0 66\n"),
    ("window of 65,536", "new 0 65536\npoke ffff 11\n"),
    ("window of 65,540", "new 0 65540\n"),
    (
        "window up to the last address",
        "new ffffffc0 64\npoke ffffffff 11\n",
    ),
    ("window past the last address", "new ffffffc4 64\n"),
    ("base no multiple of 4", "new 2 64\n"),
    (
        "zeros in front",
        "new 00000000 00000064\nsend 00001518\nwrite 00000004 0\n",
    ),
    ("poke at the end", "new 10 64\npoke 4f 11\n"),
    ("poke past the end", "new 10 64\npoke 4f 1122\n"),
    ("poke before the base", "new 10 64\npoke f 1122\n"),
    ("poke of nothing at the end", "new 10 64\npoke 50 -\n"),
    ("poke of nothing past the end", "new 10 64\npoke 51 -\n"),
    ("poke of nothing before the base", "new 10 64\npoke f -\n"),
    (
        "poke of nothing at address 0",
        "new ffffffc0 64\npoke 0 -\n",
    ),
];

/// The same behind a window of 64 bytes from address 0 on.
const BEHIND_NEW: [(&str, &str); 35] = [
    ("new, then comments", "#\n\n"),
    ("pokes alone", "poke 0 01\npoke 3f 02\npoke 0 03\n"),
    ("no line feed behind an event", "send 1518"),
    ("no line feed behind a comment", "send 1518\n# end"),
    ("no line feed behind a wrong line", "send 1518\nend"),
    ("carriage return behind an event", "send 1518\r\n"),
    ("carriage return alone", "\r\nsend 1518\n"),
    ("zero byte behind an event", "send 1518\0\n"),
    ("zero byte in a comment", "#\0\nsend 1518\n"),
    ("tab for a space", "send\t1518\n"),
    ("two spaces", "send  1518\n"),
    ("space before a comment", " #\n"),
    ("character above 7F", "send 151\u{e9}\n"),
    ("upper-case command", "SEND 1518\n"),
    ("two wrong lines", "hello\nsend 1517\n"),
    ("second new", "new 0 64\n"),
    ("nine digits", "send 000001518\n"),
    ("poke behind an event", "grant 0\npoke 0 00\n"),
    ("poke of nothing behind an event", "grant 0\npoke 0 -\n"),
    ("send with room for 1,517", "send 1517\n"),
    ("send with room for 65,536", "send 65536\n"),
    ("send with room for 65,537", "send 65537\n"),
    ("frame of no bytes", "frame -\nframe 00\n"),
    ("frame of half a byte", "frame 0\n"),
    (
        "every event",
        "write ffffffff FFFFFFFF\ngrant fFfFfFfF\nframe aAbB\nsend 1519\n",
    ),
    ("lend", "lend 64\n"),
    ("read", "read 8\n"),
    ("line", "line\n"),
    ("burst", "burst 0 -\n"),
    ("run", "run 1 1518\n"),
    ("show", "show 0\n"),
    ("ring", "ring 1 0\n"),
    ("peek", "peek 0 1\n"),
    ("check", "check\n"),
    ("state", "state\n"),
];

/// A line's front, and how long the line is made by zeros.
const LINES: [(&str, usize); 12] = [
    ("frame ", 4_096),
    ("frame ", 4_098),
    ("poke 00 ", 4_096),
    // Right in all but its length.
    ("poke 0 ", 4_097),
    ("#", 4_096),
    ("#", 4_097),
    ("#", 1_000_000),
    ("frame ", 1_000_000),
    ("hello ", 4_097),
    ("write 0 ", 16),
    ("write 0 ", 17),
    (" ", 4_097),
];

/// How many sends fill the first block, and one more.
const SENDS: [usize; 4] = [497, 498, 499, 1_002];

pub fn kinds() -> impl Iterator<Item = String> {
    let scripts = SCRIPTS.iter().chain(&BEHIND_NEW);
    let lines = LINES.map(line_kind);
    let sends = SENDS.map(sends_kind);
    scripts
        .map(|(kind, _)| kind.to_string())
        .chain(lines)
        .chain(sends)
}

fn line_kind((front, length): (&str, usize)) -> String {
    format!("line of {length}: {front}")
}

fn sends_kind(sends: usize) -> String {
    format!("{sends} sends")
}

pub fn compare(comparison: &mut Comparison) -> Result<(), String> {
    for (kind, text) in SCRIPTS {
        one(comparison, kind, text.into())?;
    }
    for (kind, rest) in BEHIND_NEW {
        one(comparison, kind, format!("new 0 64\n{rest}").into())?;
    }
    for (front, length) in LINES {
        let line = format!("{front}{}", "0".repeat(length - front.len()));
        // In the middle, and last without its line feed.
        for text in [
            format!("new 0 4096\n{line}\nsend 1518\n"),
            format!("new 0 4096\n#\n{line}"),
        ] {
            one(comparison, &line_kind((front, length)), text.into())?;
        }
    }
    for sends in SENDS {
        let text = format!("new 0 64\n{}", "send 1518\n".repeat(sends));
        one(comparison, &sends_kind(sends), text.into())?;
    }
    Ok(())
}

fn one(comparison: &mut Comparison, kind: &str, text: Vec<u8>) -> Result<(), String> {
    comparison.tally.met(expected::limit_name(kind));
    let script = Made {
        kind: "at a limit",
        text,
    };
    records::over_old(comparison, &script)
}
