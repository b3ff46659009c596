//! `explain FRAMES ANSWERS` writes each line of a list in words with the answer that a program gave
//! for it; `explain --frames FRAMES ANSWERS` writes the frame and the answer beside the words.

use tools::{answers, explain, program};

const USAGE: &str = "explain [--frames] FRAMES ANSWERS";

fn main() {
    let words: Vec<String> = std::env::args().skip(1).collect();
    let (with_frames, files) = match words.split_first() {
        Some((option, files)) if option == "--frames" => (true, files),
        _ => (false, &words[..]),
    };
    let [list, given] = files else {
        program::leave(USAGE)
    };
    let (list, given) = (program::read(list), program::read(given));
    match answers::pair(&list, &given) {
        Ok(exchanges) if with_frames => program::write(explain::in_columns(&exchanges)),
        Ok(exchanges) => program::write(explain::in_words(&exchanges)),
        Err(reason) => program::refuse(reason),
    }
}
