//! The makings in the lanes of the scopes: how long each lasts, its size and place, and its removal.

use super::colours;
use super::drawing::Drawing;
use super::glyphs::{self, CROSS};
use super::layout::Strip;
use super::svg::Rectangle;
use super::timeline::{Making, ScopeLane, Span};
use crate::words;

impl Drawing {
    /// A bar from each making to its removal.
    pub fn makings(&mut self, lane: Strip, scope: &ScopeLane) {
        for making in &scope.makings {
            let bar = self.life_bar(lane, making.span);
            glyphs::life(&mut self.svg, bar);
        }
    }

    pub fn sizes_and_removals(&mut self, lane: Strip, scope: &ScopeLane) {
        for making in &scope.makings {
            self.size(lane, making);
        }
        for span in scope.removals() {
            self.removal(lane, span);
        }
    }

    /// The size of a making and its first word in scratch, left of the cross that may end it.
    fn size(&mut self, lane: Strip, making: &Making) {
        let bar = self.life_bar(lane, making.span);
        let width = bar.width - CROSS;
        let size = words::counted(making.size, "word");
        let placed = format!("{size} from {}", making.start);
        let labels = [placed, size, making.size.to_string()];
        let room = Rectangle { width, ..bar };
        glyphs::label_over(&mut self.svg, room, colours::LIFE, &labels);
    }

    /// A cross at a removal, and that there is no scope from there on.
    fn removal(&mut self, lane: Strip, span: Span) {
        let bar = self.life_bar(lane, span);
        glyphs::removed(&mut self.svg, (bar.x, bar.y + bar.height / 2));
        let (x, width) = (bar.x + CROSS, bar.width - CROSS);
        let room = Rectangle { x, width, ..bar };
        glyphs::label_over(&mut self.svg, room, colours::LANE, &["not made".into()]);
    }
}
