//! What the three programs share: files in, text out, and how they stop.

use std::io::{self, ErrorKind, Write};
use std::process::exit;

pub use reference::arguments::leave;

/// The bytes of a file; one that cannot be read ends the program with status 2.
pub fn read(path: &str) -> Vec<u8> {
    std::fs::read(path).unwrap_or_else(|error| {
        eprintln!("{path}: {error}");
        exit(2)
    })
}

/// Writes to standard output. Where it cannot be written the program ends with status 2; a reader
/// that has gone is no fault.
pub fn write(output: impl AsRef<[u8]>) {
    let mut standard = io::stdout().lock();
    let written = standard.write_all(output.as_ref());
    match written.and_then(|()| standard.flush()) {
        Err(error) if error.kind() != ErrorKind::BrokenPipe => {
            eprintln!("standard output: {error}");
            exit(2)
        }
        _ => {}
    }
}

/// Says why nothing is written, and ends the program with status 1.
pub fn refuse(reason: impl std::fmt::Display) -> ! {
    eprintln!("{reason}");
    exit(1)
}

/// The arguments of the command line, as many as the usage has.
pub fn arguments<const COUNT: usize>(usage: &str) -> [String; COUNT] {
    let words: Vec<String> = std::env::args().skip(1).collect();
    words.try_into().unwrap_or_else(|_| leave(usage))
}
