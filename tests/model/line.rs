//! "The text lines": their areas, their fields, and the field `fletcher`.

use super::bytes::digits_value;
use super::fletcher::{fletcher, Edition};

/// "a chunk header's first 1,024 bytes"
pub const CHUNK_HEADER: u64 = 1024;
/// "a footer's 128 bytes"
pub const FOOTER: u64 = 128;

/// The text of an area's line, and the place of its newline in the area.
pub struct Text<'a> {
    pub text: &'a [u8],
    pub newline: u64,
}

/// "A line is the bytes before the first newline (10) in its area, less trailing spaces. No
/// newline: no line."
pub fn text_of(area: &[u8]) -> Option<Text<'_>> {
    let newline = area.iter().position(|&byte| byte == b'\n')?;
    let spaces = area[..newline].iter().rev().take_while(|&&byte| byte == b' ').count();
    Some(Text { text: &area[..newline - spaces], newline: newline as u64 })
}

/// The fields of a line, in its order.
pub struct Line<'a> {
    fields: Vec<(&'a [u8], u64)>,
}

impl<'a> Line<'a> {
    /// "A line is one or more fields joined by single commas. No name occurs twice."
    pub fn new(text: &'a [u8]) -> Option<Line<'a>> {
        let mut fields: Vec<(&[u8], u64)> = Vec::new();
        for part in text.split(|&byte| byte == b',') {
            let (name, value) = field(part)?;
            if fields.iter().any(|&(other, _)| other == name) {
                return None;
            }
            fields.push((name, value));
        }
        Some(Line { fields })
    }

    /// The value of a named field. "Unknown names are skipped."
    pub fn value(&self, name: &str) -> Option<u64> {
        let named = |field: &&(&[u8], u64)| field.0 == name.as_bytes();
        self.fields.iter().find(named).map(|&(_, value)| value)
    }
}

/// "each a name of 1 to 16 ASCII letters, a colon, and 1 to 16 digits"
pub fn field(part: &[u8]) -> Option<(&[u8], u64)> {
    let colon = part.iter().position(|&byte| byte == b':')?;
    let (name, value) = (&part[..colon], &part[colon + 1..]);
    let named = (1..=16).contains(&name.len()) && name.iter().all(u8::is_ascii_alphabetic);
    named.then_some((name, digits_value(value)?))
}

/// "File headers and footers end with the field `fletcher`. It covers the bytes before the comma
/// in front of it". 02, C-16: "every line in that image is judged by [the edition]".
pub fn sum_is_right(edition: Edition, text: &[u8]) -> bool {
    let Some(comma) = text.iter().rposition(|&byte| byte == b',') else {
        return false;
    };
    field(&text[comma + 1..]) == Some((b"fletcher", fletcher(edition, &text[..comma])))
}

/// The line of a file header's or a footer's area, if its `fletcher` is right.
pub fn summed_line(edition: Edition, area: &[u8]) -> Option<Line<'_>> {
    let text = text_of(area)?.text;
    sum_is_right(edition, text).then(|| Line::new(text)).flatten()
}
