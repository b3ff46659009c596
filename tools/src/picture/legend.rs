//! What the parts of the picture mean: under the lanes, only what occurs in it.

use std::collections::BTreeSet;

use super::colours;
use super::drawing::Drawing;
use super::glyphs::{self, bar, label_width, Link, MARK};
use super::layout::NUMBERS;
use super::timeline::Timeline;
use crate::refusals;
use crate::words;

const LEFT: usize = 16;
const MOST_WIDTH: usize = 1_000;
const GAP: usize = 16;
const LINE: usize = 20;
const GLYPH: usize = 18;

enum Glyph {
    Area(u64),
    Accepted,
    Refused(u64),
    Link(&'static str),
    Made,
    Removed,
}

struct Item {
    glyph: Glyph,
    words: String,
}

/// Draws the legend under the lanes. Yields where it ends.
pub fn draw(drawing: &mut Drawing, timeline: &Timeline) -> usize {
    let width = drawing.scale.picture_width().min(MOST_WIDTH);
    let top = drawing.lanes.bottom + NUMBERS + GAP / 2;
    let mut place = Place { x: LEFT, y: top };
    for items in [lane_items(timeline), refusals(timeline)] {
        for item in &items {
            place.make_room(item.width(), width);
            item.draw(drawing, place);
            place.x += item.width() + GAP;
        }
        place.next_line();
    }
    place.y + GAP / 2
}

/// Where the next item stands: the left upper corner of its glyph.
#[derive(Clone, Copy)]
struct Place {
    x: usize,
    y: usize,
}

impl Place {
    /// Goes to the next line where an item does not fit into the rest of this one.
    fn make_room(&mut self, needed: usize, width: usize) {
        if self.x + needed > width - LEFT {
            self.next_line();
        }
    }

    /// A new line, unless this one is empty.
    fn next_line(&mut self) {
        if self.x > LEFT {
            self.x = LEFT;
            self.y += LINE;
        }
    }
}

/// The areas that are ever entered, an accepted call, the lines to a starter and to a parent, a scope
/// that is made, and its removal.
fn lane_items(timeline: &Timeline) -> Vec<Item> {
    let entries = timeline.threads.values().flat_map(|lane| &lane.entries);
    let areas: BTreeSet<u64> = entries.map(|entry| entry.area).collect();
    let mut items: Vec<Item> = areas.into_iter().map(area).collect();
    if timeline.marks().any(|mark| mark.status == 0) {
        items.push(item(Glyph::Accepted, "accepted call"));
    }
    if timeline.has_helpers() {
        let glyph = Glyph::Link(colours::STARTER);
        items.push(item(glyph, "from the starter (dot) to the helper"));
    }
    if timeline.has_parents() {
        let glyph = Glyph::Link(colours::PARENT);
        items.push(item(glyph, "from the parent (dot) to the scope"));
    }
    if !timeline.scopes.is_empty() {
        let words = "scope made: its size, and from which word of scratch on";
        items.push(item(Glyph::Made, words));
    }
    if timeline.has_removals() {
        items.push(item(Glyph::Removed, "scope removed"));
    }
    items
}

/// The refusals that occur.
fn refusals(timeline: &Timeline) -> Vec<Item> {
    let statuses: BTreeSet<u64> = timeline.marks().map(|mark| mark.status).collect();
    let refused = statuses.into_iter().filter(|&status| status != 0);
    refused.map(refusal).collect()
}

fn item(glyph: Glyph, words: &str) -> Item {
    Item {
        glyph,
        words: words.into(),
    }
}

fn area(area: u64) -> Item {
    let scope = || format!("scope {area}");
    let words = words::permanent_name(area).map_or_else(scope, String::from);
    item(Glyph::Area(area), &words)
}

fn refusal(status: u64) -> Item {
    let words = refusals::words(status).unwrap_or("refused");
    item(Glyph::Refused(status), words)
}

impl Item {
    fn width(&self) -> usize {
        GLYPH + label_width(&self.words)
    }

    fn draw(&self, drawing: &mut Drawing, Place { x, y }: Place) {
        let svg = &mut drawing.svg;
        let middle = (x + GLYPH / 2, y + MARK / 2);
        match self.glyph {
            Glyph::Area(area) => {
                let swatch = bar((x, x + GLYPH), y + 1, MARK - 2);
                glyphs::area(svg, swatch, &drawing.palette.of_area(area));
            }
            Glyph::Accepted => glyphs::accepted(svg, middle),
            Glyph::Refused(status) => glyphs::refused(svg, middle, status),
            Glyph::Link(colour) => {
                let (end, dot) = ((middle.0, y + MARK), (middle.0, y + 2));
                let link = Link { end, dot, colour };
                glyphs::link_line(svg, &link);
                glyphs::link_dot(svg, &link);
            }
            Glyph::Made => glyphs::life(svg, bar((x, x + GLYPH), y + 1, MARK - 2)),
            Glyph::Removed => {
                glyphs::life(svg, bar((x, middle.0), y + 1, MARK - 2));
                glyphs::removed(svg, middle);
            }
        }
        let room = bar((x + GLYPH, x + self.width()), y + 1, MARK);
        glyphs::label(svg, room, &self.words);
    }
}
