//! `generate SEED COUNT` writes a list of COUNT lines, the same for the same seed everywhere.

use std::io::{self, Write};

use reference::arguments;

fn main() -> io::Result<()> {
    let [seed, count] = arguments::numbers("generate SEED COUNT");
    let list = reference::generator::list(seed, count);
    io::stdout().lock().write_all(&list)
}
