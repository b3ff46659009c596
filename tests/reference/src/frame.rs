//! "Frames on lines": lines in, one answer line for each.

use std::io::{self, BufRead, Write};

use crate::answer::{Answer, Refusal};
use crate::calls::{Call, Op};
use crate::machine::Machine;

/// "A frame is 40 lower-case hexadecimal digits"
pub const DIGITS: usize = 40;

/// The call of a frame, or none if the line is no frame. The fields are "op 2 (one that exists),
/// thread 2, p 16, q 4, r 16; unused fields are 0".
pub fn parse(line: &[u8]) -> Option<Call> {
    if line.len() != DIGITS {
        return None;
    }
    let op = number(&line[0..2])?;
    let thread = number(&line[2..4])?;
    let p = number(&line[4..20])?;
    let q = number(&line[20..24])?;
    let r = number(&line[24..40])?;
    let op = operation(op, p, q, r)?;
    Some(Call { thread, op })
}

/// The op of a number with its fields, if there is one: those that the table names; any other must
/// be 0.
pub fn operation(op: u64, p: u64, q: u64, r: u64) -> Option<Op> {
    let (object, slot, index) = (p, q, q);
    match (op, p, q, r) {
        (0x01, kind, 0, 0) => Some(Op::Start { kind }),
        (0x02, 0, 0, 0) => Some(Op::End),
        (0x03, 0, area, size) => Some(Op::Make { area, size }),
        (0x04, 0, area, 0) => Some(Op::Enter { area }),
        (0x05, 0, 0, 0) => Some(Op::Exit),
        (0x06, 0, slots, data) => Some(Op::Allocate { slots, data }),
        (0x07, _, _, target) => Some(Op::Store {
            object,
            slot,
            target,
        }),
        (0x08, _, _, 0) => Some(Op::Load { object, slot }),
        (0x09, _, _, word) => Some(Op::Write {
            object,
            index,
            word,
        }),
        (0x0a, _, _, 0) => Some(Op::Read { object, index }),
        (0x0b, kind, helper, 0) => Some(Op::StartHelper { kind, helper }),
        (0x0c, 0, area, 0) => Some(Op::Remove { area }),
        _ => None,
    }
}

/// The number of at most 16 digits.
pub fn number(digits: &[u8]) -> Option<u64> {
    let mut number = 0;
    for &byte in digits {
        number = number * 16 + digit(byte)?;
    }
    Some(number)
}

/// "lower-case hexadecimal"
pub fn digit(byte: u8) -> Option<u64> {
    match byte {
        b'0'..=b'9' => Some(u64::from(byte - b'0')),
        b'a'..=b'f' => Some(u64::from(byte - b'a') + 10),
        _ => None,
    }
}

/// The number of an op and its fields p, q, r.
pub fn fields(op: Op) -> (u64, u64, u64, u64) {
    match op {
        Op::Start { kind } => (0x01, kind, 0, 0),
        Op::End => (0x02, 0, 0, 0),
        Op::Make { area, size } => (0x03, 0, area, size),
        Op::Enter { area } => (0x04, 0, area, 0),
        Op::Exit => (0x05, 0, 0, 0),
        Op::Allocate { slots, data } => (0x06, 0, slots, data),
        Op::Store {
            object,
            slot,
            target,
        } => (0x07, object, slot, target),
        Op::Load { object, slot } => (0x08, object, slot, 0),
        Op::Write {
            object,
            index,
            word,
        } => (0x09, object, index, word),
        Op::Read { object, index } => (0x0a, object, index, 0),
        Op::StartHelper { kind, helper } => (0x0b, kind, helper, 0),
        Op::Remove { area } => (0x0c, 0, area, 0),
    }
}

/// The frame of a call, without its line feed. The thread must be below 256, q below 65,536.
pub fn print(call: Call) -> Vec<u8> {
    let (op, p, q, r) = fields(call.op);
    let line = format!("{op:02x}{:02x}{p:016x}{q:04x}{r:016x}", call.thread);
    assert_eq!(line.len(), DIGITS, "field too large in {call:?}");
    line.into_bytes()
}

/// "Any other line gives 18".
pub fn answer_line(machine: &mut Machine, line: &[u8]) -> Answer {
    match parse(line) {
        Some(call) => machine.run(call),
        None => Answer::refused(Refusal::Frame),
    }
}

/// "status 2 digits, value 16 digits, both in the same hexadecimal"
pub fn write_answer(output: &mut impl Write, answer: Answer) -> io::Result<()> {
    writeln!(output, "{:02x}{:016x}", answer.status, answer.value)
}

/// The start of a line, one byte more than a frame: enough to tell that a line is none.
struct LineStart {
    bytes: [u8; DIGITS + 1],
    length: usize,
}

impl LineStart {
    fn new() -> LineStart {
        let bytes = [0; DIGITS + 1];
        LineStart { bytes, length: 0 }
    }

    /// Keeps what fits; the rest "is skipped to its line feed".
    fn add(&mut self, part: &[u8]) {
        let kept = part.len().min(self.bytes.len() - self.length);
        self.bytes[self.length..self.length + kept].copy_from_slice(&part[..kept]);
        self.length += kept;
    }

    fn take(&mut self) -> &[u8] {
        let length = std::mem::take(&mut self.length);
        &self.bytes[..length]
    }
}

/// Reads lines to the end of the input and answers each.
pub fn run(mut input: impl BufRead, output: &mut impl Write) -> io::Result<()> {
    let mut machine = Machine::for_frames();
    let mut line = LineStart::new();
    loop {
        let buffer = input.fill_buf()?;
        if buffer.is_empty() {
            break;
        }
        let length = buffer.len();
        let mut rest = buffer;
        while let Some(end) = rest.iter().position(|&byte| byte == b'\n') {
            line.add(&rest[..end]);
            write_answer(output, answer_line(&mut machine, line.take()))?;
            rest = &rest[end + 1..];
        }
        line.add(rest);
        input.consume(length);
    }
    // "The last line feed may be missing."; an empty rest is no line.
    if line.length > 0 {
        write_answer(output, answer_line(&mut machine, line.take()))?;
    }
    output.flush()
}

/// The answers to a whole list held in memory.
pub fn answers(list: &[u8]) -> Vec<u8> {
    let mut output = Vec::new();
    run(list, &mut output).expect("reading and writing memory cannot fail");
    output
}

/// The lines of a list, as `run` takes them.
pub fn lines(list: &[u8]) -> Vec<&[u8]> {
    let mut lines: Vec<&[u8]> = list.split(|&byte| byte == b'\n').collect();
    if lines.last().is_some_and(|rest| rest.is_empty()) {
        lines.pop();
    }
    lines
}
