//! Makes inputs for shell tests: closes a frame with its check sequence, or gives its verdict.

use oracle::{check, hex, verdict};
use std::process::ExitCode;

fn main() -> ExitCode {
    let words: Vec<String> = std::env::args().skip(1).collect();
    let [command, digits] = &words[..] else {
        return usage();
    };
    let Some(bytes) = hex::parse(digits.as_bytes()) else {
        return usage();
    };
    match command.as_str() {
        "close" => println!("{}", hex::write(&check::closed(&bytes))),
        "verdict" => print!("{}", verdict::output(&bytes)),
        _ => return usage(),
    }
    ExitCode::SUCCESS
}

fn usage() -> ExitCode {
    eprintln!("usage: frame-tool close|verdict HEX   (HEX: pairs of digits, or - for none)");
    ExitCode::from(2)
}
