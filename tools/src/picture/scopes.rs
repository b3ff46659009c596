//! The lanes of the scopes: their used words while they are open, and their parents.

use super::colours;
use super::drawing::{Drawing, NAME};
use super::glyphs::{self, bar, Link, LABEL_HEIGHT, LINK_DOT};
use super::layout::{Strip, HEADING, WORDS};
use super::svg::Rectangle;
use super::timeline::{Opening, ScopeLane, Timeline};

impl Drawing {
    /// A lane for each scope. The lines to the parents lie over the bars of the makings, behind the
    /// words of the scopes between.
    pub fn scopes(&mut self, timeline: &Timeline) {
        for (scope, lane) in &timeline.scopes {
            self.makings(self.lanes.scopes[scope], lane);
        }
        let parents = self.parents(timeline);
        self.linked(&parents, |drawing| {
            for (&scope, lane) in &timeline.scopes {
                drawing.scope(scope, lane);
            }
        });
    }

    /// Each opening of a scope that has a parent.
    fn parents(&self, timeline: &Timeline) -> Vec<Link> {
        let mut links = Vec::new();
        for (&scope, lane) in &timeline.scopes {
            let openings = lane.openings();
            links.extend(openings.filter_map(|opening| self.parent(scope, opening)));
        }
        links
    }

    /// The near sides of both scopes' words are joined; the parent's end lies within its words.
    fn parent(&self, scope: u64, opening: &Opening) -> Option<Link> {
        let x = self.scale.middle(opening.span.from);
        let scope = words_strip(self.lanes.scopes[&scope]);
        let parent = words_strip(self.lanes.scopes[&opening.parent?]);
        let (from, to) = if parent.top < scope.top {
            (scope.top, parent.bottom() - LINK_DOT)
        } else {
            (scope.bottom(), parent.top + LINK_DOT)
        };
        Some(Link {
            end: (x, from),
            dot: (x, to),
            colour: colours::PARENT,
        })
    }

    fn scope(&mut self, scope: u64, lane: &ScopeLane) {
        let strip = self.lanes.scopes[&scope];
        self.beside(strip.bottom() - 3, NAME, &format!("scope {scope}"));
        for making in &lane.makings {
            for opening in &making.openings {
                self.opening(scope, strip, making.size, opening);
            }
        }
        self.sizes_and_removals(strip, lane);
    }

    fn opening(&mut self, scope: u64, strip: Strip, size: u64, opening: &Opening) {
        let ends = self.scale.ends(opening.span);
        let Strip { top, height } = words_strip(strip);
        let room = bar(ends, top, height);
        glyphs::area(&mut self.svg, room, &self.palette.behind(scope));
        for (span, used) in opening.steps().filter(|&(_, used)| used > 0) {
            let part = used_part(room, self.scale.ends(span), used, size);
            glyphs::area(&mut self.svg, part, &self.palette.of_area(scope));
            self.used_label(room, part, used);
        }
        self.heading(bar(ends, strip.top + 1, HEADING - 2), opening);
    }

    /// The number of used words: over their part, or in it where there is no room over it.
    fn used_label(&mut self, room: Rectangle, part: Rectangle, used: u64) {
        let y = room.y.max(part.y - LABEL_HEIGHT);
        let label = Rectangle { y, ..part };
        glyphs::label(&mut self.svg, label, &used.to_string());
    }

    /// Generation and parent over an opening, as much as there is room for, with no line behind it.
    fn heading(&mut self, room: Rectangle, opening: &Opening) {
        let parent = match opening.parent {
            Some(parent) => format!("parent {parent}"),
            None => "no parent".into(),
        };
        let whole = format!("generation {}, {parent}", opening.generation);
        glyphs::label_over(&mut self.svg, room, colours::LANE, &[whole, parent]);
    }
}

/// The part of a scope's lane that shows its words.
fn words_strip(lane: Strip) -> Strip {
    Strip {
        top: lane.top + HEADING,
        height: WORDS,
    }
}

/// The part of a scope's room that its used words take; however few, they are seen.
fn used_part(room: Rectangle, ends: (usize, usize), used: u64, size: u64) -> Rectangle {
    let height = (used * room.height as u64).div_ceil(size) as usize;
    bar(ends, room.y + room.height - height, height)
}
