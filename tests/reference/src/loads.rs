//! The loads of a list: their texts and answers, and what the book before them said.

use crate::answer::Answer;
use crate::history::History;
use crate::rights::{RightsTable, BUILT_IN};
use crate::texts::Text;

#[derive(Clone, Copy, Debug)]
pub struct Load {
    pub text: Text,
    pub answer: Answer,
    /// Whether the book before it had a row.
    pub running: bool,
    /// Whether the book before it had a live object.
    pub objects: bool,
}

#[derive(Clone, Debug, Default)]
pub struct Loads {
    pub all: Vec<Load>,
}

impl Loads {
    /// Notes a load. The history is that before it, which its step leaves as it is.
    pub fn step(&mut self, history: &History, text: Text, answer: Answer) {
        self.all.push(Load {
            text,
            answer,
            running: history.rows.iter().any(Option::is_some),
            objects: history.live_objects().next().is_some(),
        });
    }

    pub fn accepted(&self) -> impl DoubleEndedIterator<Item = &Load> {
        self.all.iter().filter(|load| load.answer.is_accepted())
    }

    /// The text of the newest accepted load, or the built-in table's.
    pub fn digits(&self) -> &[u8] {
        let newest = self.accepted().next_back();
        newest.map_or(BUILT_IN, |load| load.text.bytes())
    }

    /// The table that the list tells to be in force.
    pub fn table(&self) -> RightsTable {
        RightsTable::from_text(self.digits()).expect("a text that is no table was accepted")
    }
}
