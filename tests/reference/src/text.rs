//! What the readers of texts share: lines and digits.

/// The lines of a text, without their LF. "The last LF may be missing": what follows the last LF
/// is a line only if it has bytes (A20, F6). An empty text has no lines (F2).
pub fn lines(text: &[u8]) -> Vec<&[u8]> {
    let mut lines = Vec::new();
    let mut start = 0;
    for at in 0..text.len() {
        if text[at] == b'\n' {
            lines.push(&text[start..at]);
            start = at + 1;
        }
    }
    if start < text.len() {
        lines.push(&text[start..]);
    }
    lines
}

/// The value of a text of hex digits "of either case"; None for any other byte and for no digit.
/// The caller asks for the number of digits, 12 at most.
pub fn hex_value(digits: &[u8]) -> Option<u64> {
    if digits.is_empty() {
        return None;
    }
    let mut value = 0;
    for digit in digits {
        let worth = match digit {
            b'0'..=b'9' => digit - b'0',
            b'A'..=b'F' => digit - b'A' + 10,
            b'a'..=b'f' => digit - b'a' + 10,
            _ => return None,
        };
        value = value * 16 + worth as u64;
    }
    Some(value)
}

/// The value of a text of binary digits; None for any other byte and for no digit.
/// The caller asks for the number of digits, 32 at most.
pub fn binary_value(digits: &[u8]) -> Option<u64> {
    let mut value = 0;
    for digit in digits {
        value <<= 1;
        match digit {
            b'0' => {}
            b'1' => value |= 1,
            _ => return None,
        }
    }
    (!digits.is_empty()).then_some(value)
}

/// The value of a text of decimal digits; None for any other byte and for no digit.
/// The caller asks for the number of digits, 13 at most.
pub fn decimal_value(digits: &[u8]) -> Option<u64> {
    if digits.is_empty() {
        return None;
    }
    let mut value = 0;
    for digit in digits {
        match digit {
            b'0'..=b'9' => value = value * 10 + (digit - b'0') as u64,
            _ => return None,
        }
    }
    Some(value)
}
