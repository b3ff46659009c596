//! Reads a line for each kind from standard input and writes the digits of that table of rights, or
//! nothing for other input.

use std::io::{self, Read, Write};

use reference::rights::digits_of;

/// One byte more than three lines have: enough to tell that an input is another.
const MOST: u64 = 13;

fn main() -> io::Result<()> {
    let mut input = Vec::new();
    io::stdin().lock().take(MOST).read_to_end(&mut input)?;
    let mut output = io::stdout().lock();
    output.write_all(&digits_of(&input))?;
    output.flush()
}
