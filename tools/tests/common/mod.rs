//! Lists and their answers for the tests.
#![allow(dead_code)]

use std::path::PathBuf;

use reference::{frame, generator};

/// The lists in examples/, each with its text, answers and picture.
pub const EXAMPLES: [&str; 6] = [
    "sample",
    "emptied-parent",
    "never-entered",
    "outlived-display",
    "helper-thread",
    "removed-scope",
];

/// A file of the repository.
pub fn path(name: &str) -> PathBuf {
    PathBuf::from(env!("CARGO_MANIFEST_DIR"))
        .join("..")
        .join(name)
}

pub fn bytes(name: &str) -> Vec<u8> {
    std::fs::read(path(name)).unwrap_or_else(|error| panic!("{name}: {error}"))
}

pub fn text(name: &str) -> String {
    String::from_utf8(bytes(name)).expect("text")
}

pub fn example(name: &str, kind: &str) -> Vec<u8> {
    bytes(&format!("examples/{name}.{kind}"))
}

/// Generated lists with their answers.
pub fn generated(seeds: std::ops::Range<u64>, count: u64) -> impl Iterator<Item = List> {
    seeds.map(move |seed| List::new(generator::list(seed, count)))
}

pub struct List {
    pub frames: Vec<u8>,
    pub answers: Vec<u8>,
}

impl List {
    pub fn new(frames: impl Into<Vec<u8>>) -> List {
        let frames = frames.into();
        let answers = frame::answers(&frames);
        List { frames, answers }
    }

    pub fn lines(&self) -> usize {
        frame::lines(&self.frames).len()
    }

    pub fn exchanges(&self) -> Vec<tools::answers::Exchange<'_>> {
        tools::answers::pair(&self.frames, &self.answers).expect("each line has its answer")
    }

    pub fn words(&self) -> String {
        tools::explain::in_words(&self.exchanges())
    }

    pub fn picture(&self) -> String {
        tools::picture::draw(&self.exchanges()).expect("the answers agree")
    }
}
