//! Ticks up to the time-out, what clears their count, and the frames that are counted.

use super::{frame, LOOK, OWN, RECEIVING};

/// A window of 4,096 bytes with one granted send descriptor at 0 that leads to itself with polling;
/// sending runs there.
const WAITING: &str =
    "new 0 4096\npoke 0 0e400000000100000100000000000100\nwrite 3c 1\nwrite 30 5\n";
const SEEN: &str = "counters\nread 8\n";

/// So many ticks, each with a look.
fn ticks(count: usize) -> String {
    format!("tick\n{SEEN}").repeat(count)
}

pub fn before_any_new() -> String {
    format!(
        "{SEEN}tick\n{SEEN}write 48 1\ntick\ntick\n{SEEN}lend 4\ntick\n{SEEN}write 30 5\ntick\n"
    )
}

/// Small values, with bits above the sixteen and without, past two time-outs.
pub fn up_to_each_value() -> String {
    let mut text = String::new();
    for value in 0..6 {
        for above in ["", "1000", "ffff000"] {
            let written = format!("write 48 {above}{value}\nread 48\n");
            let all = ticks(2 * value + 3);
            text += &format!("{WAITING}{written}{all}write 8 80000\n{all}{LOOK}");
        }
    }
    text
}

/// More ticks than eight bits count.
pub fn a_long_count() -> String {
    let many = "tick\n".repeat(254);
    format!(
        "{WAITING}write 48 101\n{many}{SEEN}{}write 48 8001\n{many}{}write 48 100\n{}",
        ticks(5),
        ticks(4),
        ticks(4)
    )
}

/// Each bit of the register alone, while there is a count.
pub fn register() -> String {
    let mut text = String::from(WAITING);
    text += "write 48 ffff\nread 48\nwrite 48 ffffffff\nread 48\nread 47\nread 49\nread 4c\n";
    for bit in 0..32 {
        let value = 1_u32 << bit;
        text += &format!(
            "write 48 5\ntick\ntick\ncounters\nwrite 48 {value:x}\nread 48\n{SEEN}tick\n{SEEN}\
             write 48 5\n{SEEN}tick\n{SEEN}"
        );
    }
    text
}

/// Each cause by which a tick clears the count, and those by which it does not.
pub fn causes() -> String {
    let counted = format!("{WAITING}write 48 5\ntick\ntick\n{SEEN}");
    let goes_on = "poke c 00000100\nwrite 30 0\nwrite 3c 1\nwrite 30 5\ntick\n";
    [
        "write 30 0\n",
        "write 30 4\n",
        "write 30 1\n",
        "write 30 5\n",
        "poke c fffffeff\n",
        "poke c ffffffff\n",
        "poke c 00000000\nwrite 30 0\n",
        "write 30 0\nwrite 3c ff1\nwrite 30 5\n",
        "write 30 0\nwrite 3c ff4\nwrite 30 5\n",
        "write 30 0\nwrite 3c 1000\nwrite 30 5\n",
        "write 30 0\nwrite 3c fffffff1\nwrite 30 5\n",
        "write 30 0\nwrite 3c ff0\npoke ffc 00000100\nwrite 30 5\n",
        "poke 0 0d\n",
        "poke 0 ff4f0000\n",
        "poke 4 01\n",
        "poke 4 00100000\n",
        "lend 4092\n",
        "lend 4100\n",
        "lend 0\n",
        "write 1c 1\nwrite 10 5\n",
        "write 4 0\nwrite 8 0\nwrite 10 0\nwrite 400 0\nwrite 44 0\n",
    ]
    .map(|lines| {
        format!("{counted}{lines}{SEEN}tick\n{SEEN}tick\n{SEEN}lend 4096\n{goes_on}{SEEN}{LOOK}")
    })
    .concat()
}

/// Sends that are done, and each refusal, while there is a count.
pub fn sends() -> String {
    let counted = format!("{WAITING}write 48 5\ntick\ntick\n{SEEN}");
    let calls = ["send 1518\n", "run 1 1518\n", "run 4 9000\n"];
    [
        "",
        "write 30 0\n",
        "write 30 0\nwrite 3c ff4\nwrite 30 5\n",
        "poke 4 01\n",
        "poke 4 00100000\n",
        "poke c 00000000\n",
        "poke c 00000000\nwrite 30 0\nwrite 3c 0\nwrite 30 5\n",
        "poke 0 0d\n",
        "lend 4092\n",
    ]
    .into_iter()
    .flat_map(|lines| calls.map(|call| (lines, call)))
    .chain([
        ("", "send 1517\n"),
        ("", "run 1 1517\n"),
        ("", "run 4097 9000\n"),
        ("", "run 0 9000\n"),
    ])
    .map(|(lines, call)| {
        format!("{counted}{lines}{call}{SEEN}{call}{SEEN}lend 4096\ntick\n{SEEN}{LOOK}")
    })
    .collect()
}

/// A ring of two that receives and sends, single frames and many at once.
pub fn counted_frames() -> String {
    let ring = "new 0 4096\npoke 0 64400000000100001100000000000000\n\
                poke 10 64400000000200000100000000000000\n";
    let frame = frame(OWN, 64, 0x2B);
    let store = frame.trim_end().strip_prefix("frame ").unwrap_or_default();
    let mut text = format!("{ring}{RECEIVING}write 3c 1\nwrite 30 5\ncounters\n");
    let grants = "grant 0\ngrant 10\n";
    for count in 0..5 {
        let pairs = " 0 64".repeat(count);
        text += &format!("{grants}burst {count} {store}{pairs}\ncounters\n");
        text += &format!("{grants}run {count} 9000\ncounters\nsend 1518\ncounters\n");
        text += &format!("{frame}counters\n{grants}{frame}counters\n");
    }
    text += "burst 3 00 0 1 0 2 1 1\ncounters\nburst 1 00\ncounters\nframe -\ncounters\n";
    text + &format!("lend 0\n{frame}send 1518\ncounters\nnew 1 64\n{SEEN}{ring}{SEEN}{LOOK}")
}

pub fn forms() -> String {
    let wrong = [
        "tick ",
        " tick",
        "tick 0",
        "Tick",
        "ticks",
        "tick\t",
        "tick\r",
        "counters ",
        " counters",
        "counters 0",
        "counter",
        "Counters",
        "counters\r",
        "tick counters",
    ];
    let counted = format!("{WAITING}write 48 5\ntick\n");
    let lines = wrong.map(|line| format!("{line}\ncounters\n"));
    counted + &lines.concat()
}
