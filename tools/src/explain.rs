//! A list in words, each line with its answer.

use reference::frame;
use reference::program::quoted;

use crate::answers::Exchange;
use crate::words;

/// A line in words for each line of the list.
pub fn in_words(exchanges: &[Exchange]) -> String {
    exchanges.iter().map(words_line).collect()
}

fn words_line(exchange: &Exchange) -> String {
    format!("{}\n", words::of_exchange(exchange))
}

/// The same in columns under a heading: the frame, the answer, the words. A line that is no frame
/// is quoted.
pub fn in_columns(exchanges: &[Exchange]) -> String {
    let heading = columns("frame", "answer", "words");
    let lines = exchanges.iter().map(columns_line);
    std::iter::once(heading).chain(lines).collect()
}

fn columns_line(exchange: &Exchange) -> String {
    let (line, given) = (quoted(exchange.line), quoted(exchange.given));
    columns(&line, &given, &words::of_exchange(exchange))
}

fn columns(line: &str, given: &str, words: &str) -> String {
    format!(
        "{line:<width$} {given:<18} {words}\n",
        width = frame::DIGITS
    )
}
