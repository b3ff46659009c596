//! A program run on an input, in a process of its own.

use std::io::{self, Read, Write};
use std::process::{ChildStdout, Command, Stdio};
use std::sync::mpsc;
use std::thread;
use std::time::Duration;

/// How long a program may take for one input.
const LIMIT: Duration = Duration::from_secs(60);

/// What a program wrote, whether it ended well, and whether it took its whole input.
pub struct Run {
    pub output: Vec<u8>,
    pub success: bool,
    pub all_read: bool,
}

/// Runs a program to its end. The input is written and the output is read by threads of their own, so
/// that neither side waits for the other.
pub fn run(program: &str, input: Vec<u8>) -> io::Result<Run> {
    let mut child = Command::new(program)
        .stdin(Stdio::piped())
        .stdout(Stdio::piped())
        .spawn()?;
    let mut pipe = child.stdin.take().expect("standard input is a pipe");
    let output = child.stdout.take().expect("standard output is a pipe");
    let writer = thread::spawn(move || pipe.write_all(&input).is_ok());
    let output = read_within(output, LIMIT);
    if output.is_none() {
        child.kill()?;
    }
    let status = child.wait()?;
    let all_read = writer.join().unwrap_or(false);
    let output = output.ok_or_else(|| io::Error::other(format!("no end after {LIMIT:?}")))?;
    Ok(Run {
        output,
        success: status.success(),
        all_read,
    })
}

/// All that comes before the end, if the end comes in time.
fn read_within(mut output: ChildStdout, limit: Duration) -> Option<Vec<u8>> {
    let (sender, receiver) = mpsc::channel();
    thread::spawn(move || {
        let mut given = Vec::new();
        // What was read before an error shows as a difference.
        let _ = output.read_to_end(&mut given);
        sender.send(given)
    });
    receiver.recv_timeout(limit).ok()
}

/// Bytes as text, cut where they are long.
pub fn quoted(bytes: &[u8]) -> String {
    let start = bytes[..bytes.len().min(80)].escape_ascii();
    if bytes.len() > 80 {
        return format!("{start}... ({} bytes)", bytes.len());
    }
    start.to_string()
}
