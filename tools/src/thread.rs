//! A thread as text: `t` before its number.

use crate::number;

/// "thread 2" digits
const LAST_CALLER: u64 = 0xff;

const SIGN: char = 't';

pub fn print(thread: u64) -> String {
    format!("{SIGN}{thread}")
}

/// The thread that makes a call.
pub fn parse_caller(text: &str) -> Result<u64, String> {
    let Some(digits) = text.strip_prefix(SIGN) else {
        return Err(format!("`{text}` is no thread: t0, t1 and so on"));
    };
    number::parse("thread", digits, LAST_CALLER)
}

/// A thread in a call's field, `most` at most; its number alone will do.
pub fn parse_field(name: &str, text: &str, most: u64) -> Result<u64, String> {
    number::parse(name, text.strip_prefix(SIGN).unwrap_or(text), most)
}
