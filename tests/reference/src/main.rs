//! Reads frames from standard input to its end and writes their answers to standard output.

use std::io::{self, BufReader, BufWriter};

const BUFFER: usize = 1 << 16;

fn main() -> io::Result<()> {
    let input = BufReader::with_capacity(BUFFER, io::stdin().lock());
    let mut output = BufWriter::with_capacity(BUFFER, io::stdout().lock());
    reference::frame::run(input, &mut output)
}
