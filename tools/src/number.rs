//! A number as text: decimal, or hexadecimal after `0x`.

/// The number that a text writes, `most` at most. The name of what it is stands in the reason where
/// it is none.
pub fn parse(name: &str, text: &str, most: u64) -> Result<u64, String> {
    let (digits, radix) = match text.strip_prefix("0x") {
        Some(digits) => (digits, 16),
        None => (text, 10),
    };
    if digits.is_empty() || !digits.chars().all(|digit| digit.is_digit(radix)) {
        return Err(format!("{name} `{text}` is no number"));
    }
    let number = u64::from_str_radix(digits, radix).ok();
    number
        .filter(|&number| number <= most)
        .ok_or_else(|| format!("{name} `{text}` is above {most}"))
}
