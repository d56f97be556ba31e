//! Runs another program on an input and takes its whole output, within a time limit.

use std::io::{ErrorKind, Read, Write};
use std::path::Path;
use std::process::{ChildStdin, Command, Stdio};
use std::sync::mpsc;
use std::thread;
use std::time::Duration;

/// How long a program may take before it counts as hanging.
const LIMIT: Duration = Duration::from_secs(60);

/// What a program wrote, and what was wrong with its end, if anything.
pub struct Run {
    pub output: Vec<u8>,
    pub fault: Option<String>,
}

/// Runs `program` with `pieces` as its input, one write a piece, `pause` between them.
pub fn run(program: &Path, pieces: &[&[u8]], pause: Duration) -> Run {
    run_command(Command::new(program), pieces, pause)
}

/// The same in a folder and with arguments; the program is named from there on.
pub fn run_in(folder: &Path, program: &Path, arguments: &[String], pieces: &[&[u8]]) -> Run {
    let mut command = Command::new(program);
    command.current_dir(folder).args(arguments);
    run_command(command, pieces, Duration::ZERO)
}

fn run_command(mut command: Command, pieces: &[&[u8]], pause: Duration) -> Run {
    let mut child = command
        .stdin(Stdio::piped())
        .stdout(Stdio::piped())
        .spawn()
        .unwrap_or_else(|error| panic!("cannot start {command:?}: {error}"));
    let stdin = child.stdin.take().expect("input is piped");
    let mut stdout = child.stdout.take().expect("output is piped");
    // Writing and reading go side by side, or both programs could wait for each other.
    thread::scope(|scope| {
        let writer = scope.spawn(move || feed(stdin, pieces, pause));
        let (sender, receiver) = mpsc::channel();
        scope.spawn(move || {
            let mut output = Vec::new();
            let read = stdout.read_to_end(&mut output).map(|_| output);
            // The receiver may have given up waiting.
            let _ = sender.send(read);
        });
        let received = receiver.recv_timeout(LIMIT);
        if received.is_err() {
            // One that has ended by now is as good as killed.
            let _ = child.kill();
        }
        let status = child.wait().expect("the child was started");
        let input = writer.join().expect("the writer does not panic");
        let (output, fault) = match received {
            Err(_) => (Vec::new(), Some("no end of output in time".to_string())),
            Ok(Err(error)) => (Vec::new(), Some(format!("its output failed: {error}"))),
            Ok(Ok(output)) if status.success() => (output, input.err()),
            Ok(Ok(output)) => (output, Some(format!("it ended with {status}"))),
        };
        Run { output, fault }
    })
}

/// Writes the pieces and closes the input. A program may stop reading when it has enough.
fn feed(mut stdin: ChildStdin, pieces: &[&[u8]], pause: Duration) -> Result<(), String> {
    for (place, piece) in pieces.iter().enumerate() {
        if place > 0 {
            thread::sleep(pause);
        }
        match stdin.write_all(piece) {
            Ok(()) => {}
            Err(error) if error.kind() == ErrorKind::BrokenPipe => return Ok(()),
            Err(error) => return Err(format!("its input failed: {error}")),
        }
    }
    Ok(())
}
