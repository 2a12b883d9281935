//! Bytes in request and answer lines: lower-case hex, `-` for none.

const DIGITS: &[u8; 16] = b"0123456789abcdef";

/// The bytes that a field of a request line stands for, if it is one.
pub fn decode(field: &str) -> Option<Vec<u8>> {
    if field == "-" {
        return Some(Vec::new());
    }
    let (pairs, odd) = field.as_bytes().as_chunks::<2>();
    if pairs.is_empty() || !odd.is_empty() {
        return None;
    }
    pairs.iter().map(|[high, low]| Some(digit(*high)? << 4 | digit(*low)?)).collect()
}

fn digit(character: u8) -> Option<u8> {
    match character {
        b'0'..=b'9' => Some(character - b'0'),
        b'a'..=b'f' => Some(character - b'a' + 10),
        _ => None,
    }
}

/// Appends bytes to an answer line.
pub fn encode_to(line: &mut String, bytes: &[u8]) {
    if bytes.is_empty() {
        line.push('-');
        return;
    }
    line.reserve(2 * bytes.len());
    for byte in bytes {
        line.push(DIGITS[usize::from(byte >> 4)].into());
        line.push(DIGITS[usize::from(byte & 15)].into());
    }
}

/// Bytes as a field of a request or answer line.
pub fn encode(bytes: &[u8]) -> String {
    let mut line = String::new();
    encode_to(&mut line, bytes);
    line
}
