//! Bytes in request lines: lower-case hex, `-` for none.

/// Bytes in a request line.
pub fn hex(bytes: &[u8]) -> String {
    if bytes.is_empty() {
        return "-".to_string();
    }
    let digit = |value: u8| char::from(b"0123456789abcdef"[usize::from(value)]);
    let mut line = String::with_capacity(2 * bytes.len());
    for byte in bytes {
        line.push(digit(byte >> 4));
        line.push(digit(byte & 15));
    }
    line
}
