//! The fields of request lines: bytes in lower-case hex, `-` for none, and numbers.

fn digit(c: u8) -> Option<u8> {
    match c {
        b'0'..=b'9' => Some(c - b'0'),
        b'a'..=b'f' => Some(c - b'a' + 10),
        _ => None,
    }
}

pub fn bytes(field: &str) -> Option<Vec<u8>> {
    if field == "-" {
        return Some(Vec::new());
    }
    let text = field.as_bytes();
    if text.is_empty() || text.len() % 2 != 0 {
        return None;
    }
    text.chunks(2).map(|pair| Some(digit(pair[0])? * 16 + digit(pair[1])?)).collect()
}

pub fn hex(part: &[u8]) -> String {
    if part.is_empty() {
        return "-".to_string();
    }
    let digit = |n: u8| char::from(b"0123456789abcdef"[usize::from(n)]);
    part.iter().flat_map(|byte| [digit(byte >> 4), digit(byte & 15)]).collect()
}

/// Decimal digits alone, up to 64 bits.
pub fn number(field: &str) -> Option<u64> {
    field.bytes().all(|c| c.is_ascii_digit()).then(|| field.parse().ok())?
}

/// Decimal digits behind a minus or none, 64 bits with the sign.
pub fn signed(field: &str) -> Option<i64> {
    let digits = field.strip_prefix('-').unwrap_or(field);
    digits.bytes().all(|c| c.is_ascii_digit()).then(|| field.parse().ok())?
}
