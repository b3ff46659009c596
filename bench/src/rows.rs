//! The rows and the sides of the first table: which calls are compared, on which cores, and how much more than Rust
//! they may take.

use crate::blocks::{self, Search};
use crate::machine::{Core, InLine, Machine, Plain, Resizable, Tuned, Unchecked};
use crate::measure::{Line, Loop};
use crate::scenes::{Nest, Room};

/// How deep the calls on objects and the start of a helper are nested, and how far above a target is.
const DEPTH: u64 = 8;
const DISTANCE: u64 = 4;

/// The calls of a row.
#[derive(Clone, Copy)]
enum Calls {
    Store,
    Load,
    Read,
    View,
    Write,
    /// A scope that is opened under so many others and left.
    EnterAndExit(u64),
    /// A helper that is started, leaves every scope and ends.
    Helper,
    /// An object of no slot and so many data words.
    Allocate(u64),
    /// A scope that is made and removed.
    MakeAndRemove(Search),
}

/// The most that the ratios to tuned Rust and to it unchecked may be.
#[derive(Clone, Copy, Debug, PartialEq)]
pub struct Marks {
    pub tuned: f64,
    pub unchecked: f64,
}

/// Of a call or a pair of calls, and of what takes as long as there are entries or blocks: a helper's ten calls, and a
/// scope that is made and removed.
pub const MARKS: Marks = marks(1.0, 1.05);
const LONG_MARKS: Marks = marks(1.1, 1.15);

const fn marks(tuned: f64, unchecked: f64) -> Marks {
    Marks { tuned, unchecked }
}

#[derive(Clone, Copy)]
pub struct Row {
    pub name: &'static str,
    calls: Calls,
}

impl Row {
    pub fn marks(&self) -> Marks {
        match self.calls {
            Calls::Helper | Calls::MakeAndRemove(_) => LONG_MARKS,
            _ => MARKS,
        }
    }

    /// Its loops, one on each side.
    fn line(&self) -> Line {
        let loops = SIDES.iter().map(|side| (side.row_loop)(*self)).collect();
        match self.calls {
            Calls::MakeAndRemove(_) => Line::of_long_calls(loops),
            _ => Line::of_short_calls(loops),
        }
    }
}

pub const ROWS: [Row; 17] = [
    row("store", Calls::Store),
    row("load", Calls::Load),
    row("read", Calls::Read),
    row("view", Calls::View),
    row("write", Calls::Write),
    row("enter + exit, depth 1", Calls::EnterAndExit(0)),
    row("enter + exit, depth 8", Calls::EnterAndExit(7)),
    row("enter + exit, depth 31", Calls::EnterAndExit(30)),
    row("start helper + its exits + end, depth 8", Calls::Helper),
    row("allocate, 0 data words", Calls::Allocate(0)),
    row("allocate, 1 data word", Calls::Allocate(1)),
    row("allocate, 8 data words", Calls::Allocate(8)),
    row("allocate, 64 data words", Calls::Allocate(64)),
    row("make + remove, 1 block, empty scratch", in_empty(1)),
    row("make + remove, 16 blocks, empty scratch", in_empty(16)),
    row("make + remove, 255 blocks, empty scratch", in_empty(255)),
    row(
        "make + remove, 2 blocks, every second block used",
        Calls::MakeAndRemove(Search::behind_every_second(128)),
    ),
];

/// A scope of so many blocks in an empty scratch store, as long as the program's.
const fn in_empty(asked: u64) -> Calls {
    Calls::MakeAndRemove(Search::in_empty(256, asked))
}

const fn row(name: &'static str, calls: Calls) -> Row {
    Row { name, calls }
}

/// A core, by the name that `bench count` knows it by.
pub struct Side {
    pub name: &'static str,
    pub row_loop: fn(Row) -> Loop,
}

pub const SIDES: [Side; 5] = [
    side("exported", row_loop::<Core>),
    side("tuned", row_loop::<Tuned>),
    side("unchecked", row_loop::<Unchecked>),
    side("plain", row_loop::<Plain>),
    side("in_line", row_loop::<InLine>),
];

const fn side(name: &'static str, row_loop: fn(Row) -> Loop) -> Side {
    Side { name, row_loop }
}

/// A number for each side.
#[derive(Clone, Copy, Debug, PartialEq)]
pub struct PerSide {
    pub exported: f64,
    pub tuned: f64,
    pub unchecked: f64,
    pub plain: f64,
    pub in_line: f64,
}

impl PerSide {
    /// From numbers in the order of `SIDES`.
    pub fn from_line(line: &[f64]) -> PerSide {
        let &[exported, tuned, unchecked, plain, in_line] = line else {
            panic!("a line has a number for each side, and not {}", line.len());
        };
        PerSide {
            exported,
            tuned,
            unchecked,
            plain,
            in_line,
        }
    }
}

/// A line of loops for each of these rows.
pub fn lines(rows: &[Row]) -> Vec<Line> {
    rows.iter().map(Row::line).collect()
}

/// The rows in whose names a part stands, where there are any.
pub fn named(part: &str) -> Option<Vec<Row>> {
    let has_part = |row: &&Row| row.name.contains(part);
    let rows: Vec<Row> = ROWS.iter().filter(has_part).copied().collect();
    (!rows.is_empty()).then_some(rows)
}

/// The loop of a row on one side.
fn row_loop<M: Resizable>(row: Row) -> Loop {
    match row.calls {
        Calls::Store => nested::<M>(DEPTH, |nest, calls| nest.store(calls, DISTANCE)),
        Calls::Load => nested::<M>(DEPTH, |nest, calls| nest.load(calls, DISTANCE)),
        Calls::Read => nested::<M>(DEPTH, |nest, calls| nest.read(calls)),
        Calls::View => nested::<M>(DEPTH, |nest, calls| nest.view(calls)),
        Calls::Write => nested::<M>(DEPTH, |nest, calls| nest.write(calls)),
        Calls::EnterAndExit(above) => nested::<M>(above, |nest, calls| nest.enter_and_exit(calls)),
        Calls::Helper => nested::<M>(DEPTH, |nest, turns| nest.start_helper(turns)),
        Calls::Allocate(data_words) => {
            let mut room = Room::<M>::new();
            Box::new(move |calls| room.allocate(calls, data_words))
        }
        Calls::MakeAndRemove(search) => blocks::pair_loop::<M>(search),
    }
}

/// A loop of calls in a nest of its own.
fn nested<M: Machine + 'static>(depth: u64, run: fn(&mut Nest<M>, u64)) -> Loop {
    let mut nest = Nest::<M>::new(depth);
    Box::new(move |calls| run(&mut nest, calls))
}
