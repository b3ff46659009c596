//! Calls as text, one a line: the thread, the call's name and the fields that it uses, in their
//! order. `#` begins a comment.

use std::fmt;

use reference::calls::Call;
use reference::frame;

use crate::handle;
use crate::number;
use crate::ops::{self, Field, Row, Sort};
use crate::thread;

/// A line that is no call, and why.
#[derive(Clone, Debug, PartialEq, Eq)]
pub struct Unread {
    pub line: usize,
    pub reason: String,
}

impl fmt::Display for Unread {
    fn fmt(&self, output: &mut fmt::Formatter) -> fmt::Result {
        write!(output, "line {}: {}", self.line, self.reason)
    }
}

/// The frames of a text, or every line of it that cannot be read.
pub fn assemble(text: &[u8]) -> Result<Vec<u8>, Vec<Unread>> {
    let (mut frames, mut unread) = (Vec::new(), Vec::new());
    for (place, line) in frame::lines(text).into_iter().enumerate() {
        match parse(&String::from_utf8_lossy(line)) {
            Ok(Some(call)) => write_frame(&mut frames, call),
            Ok(None) => {}
            Err(reason) => unread.push(Unread {
                line: place + 1,
                reason,
            }),
        }
    }
    if unread.is_empty() {
        return Ok(frames);
    }
    Err(unread)
}

fn write_frame(frames: &mut Vec<u8>, call: Call) {
    frames.extend(frame::print(call));
    frames.push(b'\n');
}

/// The call of a line; none where the line is empty but for a comment.
pub fn parse(line: &str) -> Result<Option<Call>, String> {
    let call = line.split('#').next().unwrap_or_default();
    let words: Vec<&str> = call.split_whitespace().collect();
    match words[..] {
        [] => Ok(None),
        [caller, ref rest @ ..] => call_by(caller, rest).map(Some),
    }
}

fn call_by(caller: &str, rest: &[&str]) -> Result<Call, String> {
    let thread = thread::parse_caller(caller)?;
    let [name, fields @ ..] = rest else {
        return Err("the call's name is missing".into());
    };
    let row = ops::named(name).ok_or_else(|| unknown(name))?;
    let op = row.op(parse_fields(row, fields)?);
    Ok(Call { thread, op })
}

fn unknown(name: &str) -> String {
    let known: Vec<&str> = ops::TABLE.iter().map(|row| row.name).collect();
    format!("`{name}` is no call: {}", known.join(", "))
}

fn parse_fields(row: &Row, texts: &[&str]) -> Result<ops::Numbers, String> {
    if texts.len() != row.fields.len() {
        return Err(miscounted(row, texts.len()));
    }
    let mut numbers = [0; 3];
    for (field, text) in row.fields.iter().zip(texts) {
        numbers[field.place as usize] = parse_field(field, text)?;
    }
    Ok(numbers)
}

fn miscounted(row: &Row, given: usize) -> String {
    let names: Vec<&str> = row.fields.iter().map(|field| field.name).collect();
    let taken = match names.len() {
        0 => "no field".into(),
        _ => names.join(", "),
    };
    format!("{} takes {taken}: {given} given", row.name)
}

fn parse_field(field: &Field, text: &str) -> Result<u64, String> {
    let (name, most) = (field.name, field.place.most());
    match field.sort {
        Sort::Handle => handle::parse(name, text),
        Sort::Thread => thread::parse_field(name, text, most),
        Sort::Number | Sort::Kind | Sort::Area => number::parse(name, text, most),
    }
}

/// The line of a call, as `parse` reads it.
pub fn print(call: Call) -> String {
    let (row, numbers) = ops::row_of(call.op);
    let mut line = format!("{} {}", thread::print(call.thread), row.name);
    for field in row.fields {
        line += &format!(" {}", print_field(field, numbers[field.place as usize]));
    }
    line
}

fn print_field(field: &Field, number: u64) -> String {
    match field.sort {
        Sort::Thread => thread::print(number),
        Sort::Handle => handle::print(number),
        Sort::Number | Sort::Kind | Sort::Area => number.to_string(),
    }
}
