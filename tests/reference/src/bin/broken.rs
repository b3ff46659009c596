//! `broken PROGRAM` runs PROGRAM on what standard input gives, through a socket whose next read
//! fails.

use std::io::{self, Read, Write};
use std::os::fd::OwnedFd;
use std::os::unix::net::UnixStream;
use std::process::{exit, Command};

use reference::arguments;

fn main() -> io::Result<()> {
    let words: Vec<String> = std::env::args().skip(1).collect();
    let [program] = words.as_slice() else {
        arguments::leave("broken PROGRAM")
    };
    let mut input = Vec::new();
    io::stdin().read_to_end(&mut input)?;
    let status = Command::new(program)
        .stdin(OwnedFd::from(broken(&input)?))
        .status()?;
    exit(status.code().unwrap_or(1));
}

/// A socket that holds the input. Its peer was closed with a byte unread, so the read after the
/// input is one of a connection that was reset. The input has to fit into the socket.
fn broken(input: &[u8]) -> io::Result<UnixStream> {
    let (mut end, mut peer) = UnixStream::pair()?;
    end.write_all(b"?")?;
    peer.write_all(input)?;
    Ok(end)
}
