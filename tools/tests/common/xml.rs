//! A small checker of XML: one root, tags balanced, attributes quoted, texts escaped.

/// Whether a text is well-formed, as far as the pictures use XML; if not, why.
pub fn check(text: &str) -> Result<(), String> {
    let mut open: Vec<&str> = Vec::new();
    let mut rest = text.trim_end();
    let mut roots = 0;
    while !rest.is_empty() {
        let (before, tag, after) = split_tag(rest)?;
        check_text(before)?;
        if open.is_empty() {
            roots += 1;
            check_outside(before)?;
        }
        take(tag, &mut open)?;
        rest = after;
    }
    match (open.len(), roots) {
        (0, 1) => Ok(()),
        _ => Err(format!("{roots} roots, open at the end: {open:?}")),
    }
}

/// The text before the next tag, what stands in the tag, and the text behind it.
fn split_tag(text: &str) -> Result<(&str, &str, &str), String> {
    let (before, rest) = text.split_once('<').ok_or("text behind the last tag")?;
    let (tag, after) = rest.split_once('>').ok_or("a tag without its end")?;
    Ok((before, tag, after))
}

fn check_outside(text: &str) -> Result<(), String> {
    match text {
        "" => Ok(()),
        _ => Err(format!("text outside of the root: {text}")),
    }
}

/// No bare `>`, and `&` only before a name that XML has.
fn check_text(text: &str) -> Result<(), String> {
    let named = |part: &str| {
        ["amp;", "lt;", "gt;", "quot;"]
            .iter()
            .any(|name| part.starts_with(name))
    };
    if text.contains('>') || !text.split('&').skip(1).all(named) {
        return Err(format!("not escaped: {text}"));
    }
    Ok(())
}

/// A tag that opens, closes, or is an element by itself.
fn take<'a>(tag: &'a str, open: &mut Vec<&'a str>) -> Result<(), String> {
    if let Some(name) = tag.strip_prefix('/') {
        return match open.pop() {
            Some(last) if last == name => Ok(()),
            last => Err(format!("</{name}> closes {last:?}")),
        };
    }
    let (element, alone) = match tag.strip_suffix('/') {
        Some(element) => (element, true),
        None => (tag, false),
    };
    let (name, attributes) = element.split_once(' ').unwrap_or((element, ""));
    check_attributes(attributes)?;
    if !alone {
        open.push(name);
    }
    Ok(())
}

/// `name="value"`, one after another.
fn check_attributes(attributes: &str) -> Result<(), String> {
    let mut rest = attributes;
    while !rest.is_empty() {
        let (name, value) = rest.split_once("=\"").ok_or(format!("no value: {rest}"))?;
        let (value, after) = value
            .split_once('"')
            .ok_or(format!("not quoted: {value}"))?;
        let plain = |c: char| c.is_ascii_alphanumeric() || "-:".contains(c);
        if name.is_empty() || !name.chars().all(plain) {
            return Err(format!("no name: {name}"));
        }
        check_text(value)?;
        rest = after.strip_prefix(' ').unwrap_or(after);
    }
    Ok(())
}
