//! The buffers as they are lent to the exported functions: with words around them that no call may
//! touch.

use reference::memory::Memory;

/// Words before and behind each buffer.
const GUARD: [u64; 8] = [0xa5a5_5a5a_dead_beef; 8];

/// A buffer between two guards.
#[derive(Clone)]
pub struct Guarded {
    words: Vec<u64>,
}

impl Guarded {
    pub fn new(words: &[u64]) -> Guarded {
        let words = [&GUARD, words, &GUARD].concat();
        Guarded { words }
    }

    pub fn words(&self) -> &[u64] {
        &self.words[GUARD.len()..self.words.len() - GUARD.len()]
    }

    pub fn words_mut(&mut self) -> &mut [u64] {
        let end = self.words.len() - GUARD.len();
        &mut self.words[GUARD.len()..end]
    }

    /// Whether no word around the buffer was touched.
    pub fn intact(&self) -> bool {
        self.words.starts_with(&GUARD) && self.words.ends_with(&GUARD)
    }
}

/// The four buffers.
#[derive(Clone)]
pub struct Supplied {
    pub permanent: Guarded,
    pub scratch: Guarded,
    pub map: Guarded,
    pub written: Guarded,
}

impl Supplied {
    pub fn new(memory: &Memory) -> Supplied {
        Supplied {
            permanent: Guarded::new(&memory.permanent),
            scratch: Guarded::new(&memory.scratch),
            map: Guarded::new(&memory.start_map),
            written: Guarded::new(&memory.written),
        }
    }

    /// The permanent store, the scratch store, the start map and the written map, as a call takes
    /// them.
    pub fn buffers(&mut self) -> [&mut [u64]; 4] {
        let Supplied {
            permanent,
            scratch,
            map,
            written,
        } = self;
        [permanent, scratch, map, written].map(Guarded::words_mut)
    }

    /// What differs from the second implementation's memory, if anything does.
    pub fn difference(&self, memory: &Memory) -> Option<String> {
        let pairs = [
            ("permanent store", &self.permanent, &memory.permanent),
            ("scratch store", &self.scratch, &memory.scratch),
            ("start map", &self.map, &memory.start_map),
            ("written map", &self.written, &memory.written),
        ];
        pairs.iter().find_map(|(name, given, expected)| {
            if !given.intact() {
                return Some(format!("words around the {name} were written"));
            }
            first_difference(name, given.words(), expected)
        })
    }
}

fn first_difference(name: &str, given: &[u64], expected: &[u64]) -> Option<String> {
    if given == expected {
        return None;
    }
    let place = given.iter().zip(expected).position(|(g, e)| g != e)?;
    let (given, expected) = (given[place], expected[place]);
    Some(format!(
        "word {place} of the {name} is {given:x}, expected {expected:x}"
    ))
}
