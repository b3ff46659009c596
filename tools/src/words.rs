//! Calls and answers in words.

use reference::answer::Answer;
use reference::calls::Call;
use reference::rights::Kind;
use reference::state::{HEAP, IMMORTAL};

use crate::answers::Exchange;
use crate::handle;
use crate::ops::{self, Sort, Value};
use crate::refusals;
use crate::thread;

/// What stands for the call of a line that is no frame.
pub const NO_FRAME: &str = "(no frame)";

/// A line of a list and its answer, as `t0 enter 2 → generation 1`.
pub fn of_exchange(exchange: &Exchange) -> String {
    let call = exchange.call.map_or(NO_FRAME.into(), of_call);
    format!("{call} → {}", of_answer(exchange.call, exchange.answer))
}

/// A call, as `t1 store 2.1:0 slot 0 := 3.1:0`.
pub fn of_call(call: Call) -> String {
    let (row, numbers) = ops::row_of(call.op);
    let mut words = format!("{} {}", thread::print(call.thread), row.name);
    for field in row.fields {
        let number = of_number(field.sort, numbers[field.place as usize]);
        words += &format!(" {}{number}", field.lead);
    }
    words
}

/// The answer to a call, or to a line that is no frame.
pub fn of_answer(call: Option<Call>, answer: Answer) -> String {
    if !answer.is_accepted() {
        return of_refusal(answer);
    }
    let value = call.and_then(|call| ops::row_of(call.op).0.value.as_ref());
    match value {
        Some(Value { lead, sort }) => format!("{lead}{}", of_number(*sort, answer.value)),
        None => format!("accepted{}", unnamed(answer.value)),
    }
}

fn of_refusal(answer: Answer) -> String {
    let words = refusals::words(answer.status).map(|words| format!(": {words}"));
    let words = words.unwrap_or_default();
    format!("refused {}{words}{}", answer.status, unnamed(answer.value))
}

/// "The value is 0 where none is named": another one is shown.
fn unnamed(value: u64) -> String {
    match value {
        0 => String::new(),
        _ => format!(", value {value}"),
    }
}

fn of_number(sort: Sort, number: u64) -> String {
    match sort {
        Sort::Number => number.to_string(),
        Sort::Kind => with_name(number, kind_name(number)),
        Sort::Area => with_name(number, permanent_name(number)),
        Sort::Thread => thread::print(number),
        Sort::Handle => handle::print(number),
    }
}

/// A count with its noun, as `1 word`, `8 words`.
pub fn counted(count: u64, noun: &str) -> String {
    let plural = if count == 1 { "" } else { "s" };
    format!("{count} {noun}{plural}")
}

/// A number, with its name behind it if it has one.
fn with_name(number: u64, name: Option<&str>) -> String {
    match name {
        Some(name) => format!("{number} ({name})"),
        None => number.to_string(),
    }
}

/// The name of a kind, if the number is one.
fn kind_name(number: u64) -> Option<&'static str> {
    Kind::from_number(number).map(of_kind)
}

pub fn of_kind(kind: Kind) -> &'static str {
    match kind {
        Kind::Ordinary => "ordinary",
        Kind::RealTime => "real-time",
        Kind::NoHeap => "no-heap",
    }
}

/// An area by its name, or by its number where it has none.
pub fn of_area(area: u64) -> String {
    permanent_name(area).map_or(area.to_string(), String::from)
}

/// The name of an area that has one; a scope has its number alone.
pub fn permanent_name(area: u64) -> Option<&'static str> {
    match area {
        HEAP => Some("heap"),
        IMMORTAL => Some("immortal"),
        _ => None,
    }
}
