//! `picture FRAMES ANSWERS` writes an SVG of a list with the answers that a program gave for it.

use tools::{answers, picture, program};

fn main() {
    let [list, given] = program::arguments("picture FRAMES ANSWERS");
    let (list, given) = (program::read(&list), program::read(&given));
    match answers::pair(&list, &given).and_then(|exchanges| picture::draw(&exchanges)) {
        Ok(svg) => program::write(svg),
        Err(reason) => program::refuse(reason),
    }
}
