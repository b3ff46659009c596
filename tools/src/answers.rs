//! A list with the answers that a program gave for it. What an answer looks like is told here alone.

use reference::answer::Answer;
use reference::calls::Call;
use reference::frame;
use reference::program::quoted;

/// "status 2 digits, value 16 digits"
const STATUS_DIGITS: usize = 2;
const DIGITS: usize = 18;

/// A line of a list with its call, if it is a frame, and the line that answers it with its answer.
#[derive(Clone, Debug)]
pub struct Exchange<'a> {
    pub line: &'a [u8],
    pub call: Option<Call>,
    pub given: &'a [u8],
    pub answer: Answer,
}

/// Each line of a list with its answer. Fails where there are fewer answers or more, or where
/// something else stands among them.
pub fn pair<'a>(list: &'a [u8], answers: &'a [u8]) -> Result<Vec<Exchange<'a>>, String> {
    let mut given = Given::new(answers);
    let lines = frame::lines(list).into_iter().enumerate();
    let exchanges = lines.map(|(place, line)| given.exchange(place + 1, line));
    let exchanges = exchanges.collect::<Result<_, String>>()?;
    given.end()?;
    Ok(exchanges)
}

/// The answers not yet taken, and how many lines of them were.
struct Given<'a> {
    lines: std::vec::IntoIter<&'a [u8]>,
    taken: usize,
}

impl<'a> Given<'a> {
    fn new(answers: &'a [u8]) -> Given<'a> {
        let lines = frame::lines(answers).into_iter();
        Given { lines, taken: 0 }
    }

    /// A line of the list with its answer, which is one line.
    fn exchange(&mut self, number: usize, line: &'a [u8]) -> Result<Exchange<'a>, String> {
        let Some(given) = self.next() else {
            return Err(format!("line {number} of the list has no answer"));
        };
        let answer = parse(given).ok_or_else(|| self.no_answer(given))?;
        Ok(Exchange {
            line,
            call: frame::parse(line),
            given,
            answer,
        })
    }

    fn next(&mut self) -> Option<&'a [u8]> {
        self.taken += 1;
        self.lines.next()
    }

    fn no_answer(&self, given: &[u8]) -> String {
        let (number, given) = (self.taken, quoted(given));
        format!("line {number} of the answers is no answer: {given}")
    }

    fn end(&mut self) -> Result<(), String> {
        match self.next() {
            None => Ok(()),
            Some(_) => Err(format!(
                "line {} of the answers answers no line of the list",
                self.taken
            )),
        }
    }
}

/// The answer of a line.
fn parse(line: &[u8]) -> Option<Answer> {
    if line.len() != DIGITS {
        return None;
    }
    let (status, value) = line.split_at(STATUS_DIGITS);
    Some(Answer {
        status: frame::number(status)?,
        value: frame::number(value)?,
    })
}
