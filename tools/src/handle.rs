//! A handle as text: `area.generation:offset`, `null`, or its number.

use reference::layout::{Handle, NULL};

use crate::number;

/// The greatest value of each part: "word offset in its area in bits 0 to 13, area in bits 14 to 19,
/// turn in bits 20 to 63".
const LAST_OFFSET: u64 = (1 << 14) - 1;
const LAST_AREA: u64 = (1 << 6) - 1;
const LAST_GENERATION: u64 = (1 << 44) - 1;

const NULL_TEXT: &str = "null";

pub fn print(word: u64) -> String {
    if word == NULL {
        return NULL_TEXT.into();
    }
    let handle = Handle::unpack(word);
    format!("{}.{}:{}", handle.area, handle.generation, handle.offset)
}

/// The word of a handle's text. The name of what it is stands in the reason where it is none.
pub fn parse(name: &str, text: &str) -> Result<u64, String> {
    if text == NULL_TEXT {
        return Ok(NULL);
    }
    let word = match parts(text) {
        Some(parts) => pack(parts),
        None => number::parse(name, text, u64::MAX)
            .map_err(|_| "area.generation:offset, null or a number of 64 bits".into()),
    };
    word.map_err(|reason| format!("{name} `{text}` is no handle: {reason}"))
}

/// The texts of area, generation and offset.
fn parts(text: &str) -> Option<[&str; 3]> {
    let (area, rest) = text.split_once('.')?;
    let (generation, offset) = rest.split_once(':')?;
    Some([area, generation, offset])
}

fn pack([area, generation, offset]: [&str; 3]) -> Result<u64, String> {
    let handle = Handle {
        area: number::parse("area", area, LAST_AREA)?,
        generation: number::parse("generation", generation, LAST_GENERATION)?,
        offset: number::parse("offset", offset, LAST_OFFSET)?,
    };
    Ok(handle.pack())
}
