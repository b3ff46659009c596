//! The drawing of a timeline: its headline, the numbers of the calls, and what lies over all lanes.

use super::colours::{self, Palette};
use super::glyphs::{self, bar, font, Link};
use super::layout::{Lanes, Scale, Strip, NUMBERS, TITLE};
use super::legend;
use super::svg::{Anchor, Font, Rectangle, Svg};
use super::timeline::{Span, Timeline};
use crate::answers::Exchange;
use crate::{text, words};

pub const NAME: Font = font(12, colours::TEXT, Anchor::End);
const HEADLINE: Font = font(13, colours::TEXT, Anchor::Start);
const NUMBER: Font = font(10, colours::FAINT_TEXT, Anchor::Middle);
const CALL: Font = font(10, colours::TEXT, Anchor::Start);

/// The picture being drawn. The lanes of threads and scopes are drawn by modules of their own.
pub struct Drawing {
    pub svg: Svg,
    pub scale: Scale,
    pub lanes: Lanes,
    pub palette: Palette,
}

pub fn draw(timeline: &Timeline, exchanges: &[Exchange]) -> String {
    let mut drawing = Drawing::new(timeline, exchanges);
    drawing.headline(timeline);
    drawing.grounds();
    drawing.grid();
    drawing.calls(exchanges);
    drawing.threads(timeline);
    drawing.scopes(timeline);
    drawing.hints(exchanges);
    drawing.finish(timeline)
}

/// The call of a line, as it is written over its column.
fn written(exchange: &Exchange) -> String {
    exchange.call.map_or(words::NO_FRAME.into(), text::print)
}

impl Drawing {
    fn new(timeline: &Timeline, exchanges: &[Exchange]) -> Drawing {
        let scale = Scale::new(timeline.columns);
        let lengths = exchanges.iter().map(|line| CALL.width(&written(line)));
        let longest = lengths.max().filter(|_| scale.written()).unwrap_or(0);
        Drawing {
            svg: Svg::default(),
            scale,
            lanes: Lanes::new(timeline, longest),
            palette: Palette::new(timeline.scopes.keys().copied()),
        }
    }

    fn headline(&mut self, timeline: &Timeline) {
        let refused = timeline.marks().filter(|mark| mark.status != 0).count();
        let lines = words::counted(timeline.columns as u64, "line");
        let words = format!("{lines}, {refused} refused");
        self.svg.text((self.scale.start(), TITLE), HEADLINE, &words);
    }

    /// A pale ground for every lane.
    fn grounds(&mut self) {
        let ends = (self.scale.start(), self.scale.right());
        for strip in self.lanes.all() {
            let ground = bar(ends, strip.top, strip.height);
            self.svg.rectangle(ground, colours::LANE, None);
        }
    }

    /// The calls' numbers above the lanes and below them, and a line between the two.
    fn grid(&mut self) {
        let (top, bottom) = (self.lanes.top - 4, self.lanes.bottom);
        for column in self.scale.numbered() {
            let x = self.scale.middle(column);
            self.svg.line((x, top), (x, bottom), colours::GRID);
            let number = (column + 1).to_string();
            self.svg.text((x, top - 3), NUMBER, &number);
            self.svg.text((x, bottom + 11), NUMBER, &number);
        }
    }

    /// Each call written out over its column, where there is room.
    fn calls(&mut self, exchanges: &[Exchange]) {
        if !self.scale.written() {
            return;
        }
        for (column, exchange) in exchanges.iter().enumerate() {
            let at = (self.scale.middle(column) + 4, self.lanes.top - NUMBERS);
            self.svg.upright_text(at, CALL, &written(exchange));
        }
    }

    /// A text left of a lane.
    pub fn beside(&mut self, y: usize, font: Font, text: &str) {
        self.svg.text((self.scale.start() - 8, y), font, text);
    }

    /// The bar of a life in its lane.
    pub fn life_bar(&self, lane: Strip, span: Span) -> Rectangle {
        let Strip { top, height } = lane.life();
        bar(self.scale.ends(span), top, height)
    }

    /// Lanes and their links: the lines lie behind what is drawn in the lanes, the dots over it.
    pub fn linked(&mut self, links: &[Link], draw_lanes: impl FnOnce(&mut Drawing)) {
        for link in links {
            glyphs::link_line(&mut self.svg, link);
        }
        draw_lanes(self);
        for link in links {
            glyphs::link_dot(&mut self.svg, link);
        }
    }

    /// Each call in words, where a pointer rests on its column.
    fn hints(&mut self, exchanges: &[Exchange]) {
        let (top, height) = (self.lanes.top, self.lanes.bottom - self.lanes.top);
        for (column, exchange) in exchanges.iter().enumerate() {
            let place = bar(self.scale.sides(column), top, height);
            let words = format!("{}: {}", column + 1, words::of_exchange(exchange));
            self.svg.hint(place, &words);
        }
    }

    fn finish(mut self, timeline: &Timeline) -> String {
        let height = legend::draw(&mut self, timeline);
        self.svg.finish(self.scale.picture_width(), height)
    }
}
