//! Where things stand: columns from left to right, lanes from top to bottom.

use std::collections::BTreeMap;

use super::timeline::{ScopeLane, Span, ThreadLane, Timeline};

/// The names of the lanes stand left of the columns.
const LEFT: usize = 92;
const RIGHT: usize = 16;
/// The legend's longest words fit into it.
const LEAST_WIDTH: usize = 480;
/// The title stands above all, the numbers of the calls above the lanes and below them.
pub const TITLE: usize = 20;
const BELOW_TITLE: usize = 30;
pub const NUMBERS: usize = 18;
const BETWEEN: usize = 8;

/// The rows of a thread's lane: marks of its calls, one for each entry, its life.
pub const MARKS: usize = 18;
pub const ENTRY: usize = 15;
pub const LIFE: usize = 14;
/// The rows of a scope's lane: its generation and parent, its words, its life from making to removal.
pub const HEADING: usize = 14;
pub const WORDS: usize = 36;

/// A width of the columns: the most calls that it serves, the step between numbers, and whether there
/// is room to write out each call.
#[derive(Clone, Copy, Debug)]
struct Width {
    most: usize,
    pixels: usize,
    step: usize,
    written: bool,
}

/// A mark fits into the narrowest column.
const WIDTHS: [Width; 3] = [
    Width {
        most: 60,
        pixels: 28,
        step: 1,
        written: true,
    },
    Width {
        most: 150,
        pixels: 20,
        step: 5,
        written: false,
    },
    Width {
        most: usize::MAX,
        pixels: 16,
        step: 10,
        written: false,
    },
];

/// The columns.
#[derive(Clone, Copy, Debug)]
pub struct Scale {
    columns: usize,
    width: Width,
}

impl Scale {
    pub fn new(columns: usize) -> Scale {
        let fitting = WIDTHS.iter().find(|width| columns <= width.most);
        let width = *fitting.expect("the last width serves any number");
        Scale { columns, width }
    }

    /// Whether each call is written out over its column.
    pub fn written(&self) -> bool {
        self.width.written
    }

    pub fn start(&self) -> usize {
        LEFT
    }

    /// The left and right side of a column.
    pub fn sides(&self, column: usize) -> (usize, usize) {
        let left = LEFT + column * self.width.pixels;
        (left, left + self.width.pixels)
    }

    /// A call happens in the middle of its column.
    pub fn middle(&self, column: usize) -> usize {
        let (left, right) = self.sides(column);
        (left + right) / 2
    }

    /// Where the columns end.
    pub fn right(&self) -> usize {
        self.sides(self.columns).0
    }

    /// From the call that began something to the call that ended it, or to the end of the list.
    pub fn ends(&self, span: Span) -> (usize, usize) {
        let to = span.to.map_or(self.right(), |column| self.middle(column));
        (self.middle(span.from), to)
    }

    /// The columns that get a number: the first one, and each that the step divides.
    pub fn numbered(&self) -> impl Iterator<Item = usize> {
        let (columns, step) = (self.columns, self.width.step);
        (0..columns).filter(move |column| *column == 0 || (column + 1) % step == 0)
    }

    pub fn picture_width(&self) -> usize {
        (self.right() + RIGHT).max(LEAST_WIDTH)
    }
}

/// A lane's top and height.
#[derive(Clone, Copy, Debug)]
pub struct Strip {
    pub top: usize,
    pub height: usize,
}

impl Strip {
    pub fn bottom(self) -> usize {
        self.top + self.height
    }

    /// The part of a lane that shows its life.
    pub fn life(self) -> Strip {
        Strip {
            top: self.bottom() - LIFE + 1,
            height: LIFE - 2,
        }
    }
}

/// The lanes by their threads and scopes, and the one of lines that are no frame.
#[derive(Debug)]
pub struct Lanes {
    pub no_frames: Option<Strip>,
    pub threads: BTreeMap<u64, Strip>,
    pub scopes: BTreeMap<u64, Strip>,
    pub top: usize,
    pub bottom: usize,
}

impl Lanes {
    /// The lanes under calls that are written out in this height.
    pub fn new(timeline: &Timeline, written: usize) -> Lanes {
        let top = BELOW_TITLE + written + NUMBERS;
        let mut bottom = top;
        let mut strip = |height| {
            let top = bottom;
            bottom += height + BETWEEN;
            Strip { top, height }
        };
        let any_no_frame = !timeline.no_frames.is_empty();
        let no_frames = any_no_frame.then(|| strip(MARKS));
        let threads = timeline.threads.iter();
        let threads = threads.map(|(&thread, lane)| (thread, strip(thread_height(lane))));
        let threads = threads.collect();
        let scopes = timeline.scopes.iter();
        let scopes = scopes.map(|(&scope, lane)| (scope, strip(scope_height(lane))));
        let scopes = scopes.collect();
        Lanes {
            no_frames,
            threads,
            scopes,
            top,
            bottom,
        }
    }

    pub fn all(&self) -> impl Iterator<Item = &Strip> {
        let threads = self.no_frames.iter().chain(self.threads.values());
        threads.chain(self.scopes.values())
    }
}

fn thread_height(lane: &ThreadLane) -> usize {
    MARKS + lane.height() * ENTRY + LIFE
}

/// A scope that is never open has its life alone.
fn scope_height(lane: &ScopeLane) -> usize {
    match lane.openings().next() {
        Some(_) => HEADING + WORDS + LIFE,
        None => LIFE,
    }
}
