//! `assemble CALLS` reads calls as text and writes their frames. A line that it cannot read is told
//! with its number, and then nothing is written.

use tools::{program, text};

fn main() {
    let [calls] = program::arguments("assemble CALLS");
    match text::assemble(&program::read(&calls)) {
        Ok(frames) => program::write(frames),
        Err(unread) => {
            let lines: Vec<String> = unread.iter().map(ToString::to_string).collect();
            program::refuse(lines.join("\n"))
        }
    }
}
