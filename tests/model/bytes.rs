//! Numbers as they are written: big-endian, variable-size, and in hex digits.

/// The `length` bytes at place `at`, if they all stand in `bytes`.
pub fn part(bytes: &[u8], at: u64, length: u64) -> Option<&[u8]> {
    let end = at.checked_add(length)?;
    bytes.get(usize::try_from(at).ok()?..usize::try_from(end).ok()?)
}

/// "Big-endian": the number in the `width` bytes (at most 8) at place `at`.
pub fn big_endian(bytes: &[u8], at: u64, width: u64) -> Option<u64> {
    let bytes = part(bytes, at, width)?;
    Some(bytes.iter().fold(0, |value, &byte| value << 8 | u64::from(byte)))
}

/// More bytes than this are above every limit in shortest form.
const LONGEST_VARIABLE: usize = 10;

/// "variable-size, low 7 bits first, high bit set on all but the last byte, shortest form":
/// the number at place `at` if it is below `limit`, and the place after it.
pub fn variable(bytes: &[u8], at: u64, limit: u64) -> Option<(u64, u64)> {
    let tail = bytes.get(usize::try_from(at).ok()?..)?;
    let mut value = 0u128;
    for (i, &byte) in tail.iter().take(LONGEST_VARIABLE).enumerate() {
        value |= u128::from(byte & 0x7f) << (7 * i);
        if byte & 0x80 == 0 {
            let shortest = i == 0 || byte != 0;
            let good = shortest && value < u128::from(limit);
            return good.then_some((value as u64, at + i as u64 + 1));
        }
    }
    None
}

/// "1 to 16 digits 0-9a-f with no leading zero unless the value is `0`"
pub fn digits_value(text: &[u8]) -> Option<u64> {
    let leading_zero = text.len() > 1 && text[0] == b'0';
    if text.is_empty() || text.len() > 16 || leading_zero {
        return None;
    }
    text.iter().try_fold(0, |value, &digit| Some(value << 4 | digit_value(digit)?))
}

fn digit_value(digit: u8) -> Option<u64> {
    match digit {
        b'0'..=b'9' => Some(u64::from(digit - b'0')),
        b'a'..=b'f' => Some(u64::from(digit - b'a') + 10),
        _ => None,
    }
}

/// A number written by that rule.
pub fn digits(number: u64) -> Vec<u8> {
    format!("{number:x}").into_bytes()
}
