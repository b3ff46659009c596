//! An SVG being written: shapes and texts one after another, at whole pixels.

use super::colours;

/// A text's attributes: the size of its letters, its colour, and where it stands at its place.
#[derive(Clone, Copy, Debug)]
pub struct Font {
    pub size: usize,
    pub colour: &'static str,
    pub anchor: Anchor,
    pub bold: bool,
}

#[derive(Clone, Copy, Debug)]
pub enum Anchor {
    Start,
    Middle,
    End,
}

impl Anchor {
    fn name(self) -> &'static str {
        match self {
            Anchor::Start => "start",
            Anchor::Middle => "middle",
            Anchor::End => "end",
        }
    }
}

impl Font {
    /// The width of a text, rather more than most fonts take.
    pub fn width(&self, text: &str) -> usize {
        (text.chars().count() * self.size * 62).div_ceil(100)
    }
}

/// A rectangle: its left upper corner, its width and height.
#[derive(Clone, Copy, Debug)]
pub struct Rectangle {
    pub x: usize,
    pub y: usize,
    pub width: usize,
    pub height: usize,
}

impl Rectangle {
    fn attributes(self) -> String {
        let Rectangle {
            x,
            y,
            width,
            height,
        } = self;
        format!("x=\"{x}\" y=\"{y}\" width=\"{width}\" height=\"{height}\"")
    }
}

/// The elements written so far, one a line.
#[derive(Debug, Default)]
pub struct Svg {
    body: String,
}

impl Svg {
    /// A rectangle with a fill and, if it is named, the colour of its edge.
    pub fn rectangle(&mut self, at: Rectangle, fill: &str, edge: Option<&str>) {
        let edge = edge.map_or(String::new(), |edge| format!(" stroke=\"{edge}\""));
        let place = at.attributes();
        self.add(&format!("<rect {place} fill=\"{fill}\"{edge}/>"));
    }

    /// A rectangle that is not seen and shows a text where a pointer rests on it.
    pub fn hint(&mut self, at: Rectangle, text: &str) {
        let (place, text) = (at.attributes(), escaped(text));
        self.add(&format!(
            "<rect {place} fill-opacity=\"0\"><title>{text}</title></rect>"
        ));
    }

    pub fn line(&mut self, from: (usize, usize), to: (usize, usize), colour: &str) {
        self.add(&format!(
            "<line x1=\"{}\" y1=\"{}\" x2=\"{}\" y2=\"{}\" stroke=\"{colour}\"/>",
            from.0, from.1, to.0, to.1
        ));
    }

    pub fn dot(&mut self, at: (usize, usize), radius: usize, colour: &str) {
        self.add(&format!(
            "<circle cx=\"{}\" cy=\"{}\" r=\"{radius}\" fill=\"{colour}\"/>",
            at.0, at.1
        ));
    }

    /// Two strokes that cross, as long to each side as its reach.
    pub fn cross(&mut self, (x, y): (usize, usize), reach: usize, colour: &str) {
        let (left, right) = (x - reach, x + reach);
        let (top, bottom) = (y - reach, y + reach);
        self.add(&format!(
            "<path d=\"M{left} {top}L{right} {bottom}M{left} {bottom}L{right} {top}\" \
             stroke=\"{colour}\" stroke-width=\"2\"/>"
        ));
    }

    /// A text on its base line.
    pub fn text(&mut self, at: (usize, usize), font: Font, text: &str) {
        let place = format!("x=\"{}\" y=\"{}\"", at.0, at.1);
        self.text_at(&place, font, text);
    }

    /// A text that reads upwards from its place.
    pub fn upright_text(&mut self, at: (usize, usize), font: Font, text: &str) {
        let place = format!("transform=\"translate({} {}) rotate(-90)\"", at.0, at.1);
        self.text_at(&place, font, text);
    }

    fn text_at(&mut self, place: &str, font: Font, text: &str) {
        let bold = if font.bold {
            " font-weight=\"bold\""
        } else {
            ""
        };
        self.add(&format!(
            "<text {place} font-size=\"{}\" fill=\"{}\" text-anchor=\"{}\"{bold}>{}</text>",
            font.size,
            font.colour,
            font.anchor.name(),
            escaped(text)
        ));
    }

    fn add(&mut self, element: &str) {
        self.body += element;
        self.body += "\n";
    }

    /// The whole file, on a light ground.
    pub fn finish(self, width: usize, height: usize) -> String {
        format!(
            "<svg xmlns=\"http://www.w3.org/2000/svg\" width=\"{width}\" height=\"{height}\" \
             viewBox=\"0 0 {width} {height}\" font-family=\"system-ui, sans-serif\">\n\
             <rect width=\"{width}\" height=\"{height}\" fill=\"{}\"/>\n{}</svg>\n",
            colours::GROUND,
            self.body
        )
    }
}

fn escaped(text: &str) -> String {
    let text = text.replace('&', "&amp;").replace('<', "&lt;");
    text.replace('>', "&gt;")
}
