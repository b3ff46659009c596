//! The small parts that the lanes and the legend share.

use super::colours;
use super::svg::{Anchor, Font, Rectangle, Svg};

const LABEL: Font = font(10, colours::TEXT, Anchor::Start);
const STATUS: Font = Font {
    bold: true,
    ..font(9, colours::ON_REFUSED, Anchor::Middle)
};

/// The side of a mark; two digits fit into it.
pub const MARK: usize = 14;
/// The radius of a link's dot.
pub const LINK_DOT: usize = 3;
/// How far a removal's cross reaches from its middle.
pub const CROSS: usize = 4;
/// A label's height, its base line in its bar, and the room on its left.
pub const LABEL_HEIGHT: usize = 13;
const BASE: usize = 10;
const BESIDE: usize = 4;

pub const fn font(size: usize, colour: &'static str, anchor: Anchor) -> Font {
    Font {
        size,
        colour,
        anchor,
        bold: false,
    }
}

/// A bar from one side to the other.
pub fn bar((from, to): (usize, usize), y: usize, height: usize) -> Rectangle {
    Rectangle {
        x: from,
        y,
        width: to - from,
        height,
    }
}

/// The room that a label takes in a bar.
pub fn label_width(words: &str) -> usize {
    BESIDE + LABEL.width(words)
}

/// A label in a bar, if there is room for it.
pub fn label(svg: &mut Svg, bar: Rectangle, words: &str) {
    if label_width(words) <= bar.width {
        svg.text((bar.x + BESIDE, bar.y + BASE), LABEL, words);
    }
}

/// The first of some labels that fits into a room. No line is seen behind it, but one at the room's
/// left side is.
pub fn label_over(svg: &mut Svg, room: Rectangle, ground: &str, labels: &[String]) {
    let mut fitting = labels.iter();
    if let Some(words) = fitting.find(|words| label_width(words) <= room.width) {
        let sides = (room.x + 1, room.x + label_width(words));
        svg.rectangle(bar(sides, room.y, room.height), ground, None);
        label(svg, room, words);
    }
}

/// An area's bar.
pub fn area(svg: &mut Svg, bar: Rectangle, fill: &str) {
    svg.rectangle(bar, fill, Some(colours::EDGE));
}

/// The bar of a thread while it is started, of a scope while it is made.
pub fn life(svg: &mut Svg, bar: Rectangle) {
    svg.rectangle(bar, colours::LIFE, None);
}

/// The end of a scope's life.
pub fn removed(svg: &mut Svg, at: (usize, usize)) {
    svg.cross(at, CROSS, colours::REMOVED);
}

/// An accepted call.
pub fn accepted(svg: &mut Svg, at: (usize, usize)) {
    svg.dot(at, 2, colours::ACCEPTED);
}

/// A refused call with its number.
pub fn refused(svg: &mut Svg, (x, y): (usize, usize), status: u64) {
    let sides = (x - MARK / 2, x + MARK / 2);
    let ground = bar(sides, y - MARK / 2, MARK);
    svg.rectangle(ground, colours::REFUSED, None);
    svg.text((x, y + 3), STATUS, &status.to_string());
}

/// A line between two lanes with a dot at its one end: at the parent of a scope, at the starter of a
/// helper.
pub struct Link {
    pub end: (usize, usize),
    pub dot: (usize, usize),
    pub colour: &'static str,
}

pub fn link_line(svg: &mut Svg, link: &Link) {
    svg.line(link.end, link.dot, link.colour);
}

pub fn link_dot(svg: &mut Svg, link: &Link) {
    svg.dot(link.dot, LINK_DOT, link.colour);
}
