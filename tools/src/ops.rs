//! The table of ops, which explain and assemble both read: an op is one row here.

use reference::calls::Op;
use reference::frame;

/// A field of the frame.
#[derive(Clone, Copy, Debug, PartialEq, Eq)]
pub enum Place {
    P,
    Q,
    R,
}

impl Place {
    /// The greatest number that its digits can write: q has 4, p and r have 16.
    pub fn most(self) -> u64 {
        match self {
            Place::Q => 0xffff,
            Place::P | Place::R => u64::MAX,
        }
    }
}

/// The numbers in p, q and r, by their places.
pub type Numbers = [u64; 3];

/// What a number stands for.
#[derive(Clone, Copy, Debug, PartialEq, Eq)]
pub enum Sort {
    Number,
    Kind,
    Area,
    Thread,
    Handle,
}

/// A field that an op uses: its place and name, the words before it, and its sort.
#[derive(Debug)]
pub struct Field {
    pub place: Place,
    pub name: &'static str,
    pub lead: &'static str,
    pub sort: Sort,
}

/// An accepted call's value: the words before it, and its sort.
#[derive(Debug)]
pub struct Value {
    pub lead: &'static str,
    pub sort: Sort,
}

/// An op: its number, its name, the fields that it uses in their order, and its value, if one is
/// named.
#[derive(Debug)]
pub struct Row {
    pub number: u64,
    pub name: &'static str,
    pub fields: &'static [Field],
    pub value: Option<Value>,
}

const fn field(place: Place, name: &'static str, lead: &'static str, sort: Sort) -> Field {
    Field {
        place,
        name,
        lead,
        sort,
    }
}

const fn value(lead: &'static str, sort: Sort) -> Option<Value> {
    Some(Value { lead, sort })
}

const fn row(
    number: u64,
    name: &'static str,
    fields: &'static [Field],
    value: Option<Value>,
) -> Row {
    Row {
        number,
        name,
        fields,
        value,
    }
}

const KIND: Field = field(Place::P, "kind", "", Sort::Kind);
const AREA: Field = field(Place::Q, "area", "", Sort::Area);
const SIZE: Field = field(Place::R, "size", "size ", Sort::Number);
const SLOTS: Field = field(Place::Q, "slots", "slots ", Sort::Number);
const DATA: Field = field(Place::R, "data", "data ", Sort::Number);
const OBJECT: Field = field(Place::P, "object", "", Sort::Handle);
const SLOT: Field = field(Place::Q, "slot", "slot ", Sort::Number);
const TARGET: Field = field(Place::R, "target", ":= ", Sort::Handle);
const INDEX: Field = field(Place::Q, "index", "index ", Sort::Number);
const WORD: Field = field(Place::R, "word", ":= ", Sort::Number);
const HELPER: Field = field(Place::Q, "thread", "as ", Sort::Thread);

/// The ops in the order of their numbers.
pub static TABLE: &[Row] = &[
    row(0x01, "start", &[KIND], None),
    row(0x02, "end", &[], None),
    row(0x03, "make", &[AREA, SIZE], None),
    row(0x04, "enter", &[AREA], value("generation ", Sort::Number)),
    row(0x05, "exit", &[], value("count ", Sort::Number)),
    row(
        0x06,
        "allocate",
        &[SLOTS, DATA],
        value("object ", Sort::Handle),
    ),
    row(0x07, "store", &[OBJECT, SLOT, TARGET], None),
    row(
        0x08,
        "load",
        &[OBJECT, SLOT],
        value("reference ", Sort::Handle),
    ),
    row(0x09, "write", &[OBJECT, INDEX, WORD], None),
    row(0x0a, "read", &[OBJECT, INDEX], value("word ", Sort::Number)),
    row(0x0b, "start_helper", &[KIND, HELPER], None),
    row(0x0c, "remove", &[AREA], None),
];

/// The row of an op, with the numbers in its frame.
pub fn row_of(op: Op) -> (&'static Row, Numbers) {
    let (number, p, q, r) = frame::fields(op);
    let row = TABLE.iter().find(|row| row.number == number);
    (row.expect("every op has its row"), [p, q, r])
}

/// The row of a call's name.
pub fn named(name: &str) -> Option<&'static Row> {
    TABLE.iter().find(|row| row.name == name)
}

impl Row {
    /// The op of this row with these numbers in its frame; those that it does not use are 0.
    pub fn op(&self, [p, q, r]: Numbers) -> Op {
        let op = frame::operation(self.number, p, q, r);
        op.expect("every row is an op, with the fields that it uses")
    }
}
