//! Hex digits: at most one leading 0x, then two digits of either case a byte.
use std::fmt;

#[derive(Debug, Clone, PartialEq, Eq)]
pub struct FromHexError(String);

impl FromHexError {
    pub(crate) fn new(message: &str) -> Self {
        FromHexError(message.to_string())
    }
}

impl fmt::Display for FromHexError {
    fn fmt(&self, f: &mut fmt::Formatter<'_>) -> fmt::Result {
        f.write_str(&self.0)
    }
}

impl std::error::Error for FromHexError {}

fn digit(b: u8) -> Option<u8> {
    match b {
        b'0'..=b'9' => Some(b - b'0'),
        b'a'..=b'f' => Some(b - b'a' + 10),
        b'A'..=b'F' => Some(b - b'A' + 10),
        _ => None,
    }
}

pub fn decode<T: AsRef<[u8]>>(text: T) -> Result<Vec<u8>, FromHexError> {
    let text = text.as_ref();
    let digits = text.strip_prefix(b"0x").unwrap_or(text);
    if digits.len() % 2 != 0 {
        return Err(FromHexError::new("odd number of digits"));
    }
    let mut out = Vec::with_capacity(digits.len() / 2);
    for pair in digits.chunks(2) {
        match (digit(pair[0]), digit(pair[1])) {
            (Some(high), Some(low)) => out.push(16 * high + low),
            _ => return Err(FromHexError::new("not a hex digit")),
        }
    }
    Ok(out)
}

const LOWER: &[u8; 16] = b"0123456789abcdef";

pub fn encode<T: AsRef<[u8]>>(bytes: T) -> String {
    let bytes = bytes.as_ref();
    let mut out = String::with_capacity(2 * bytes.len());
    for b in bytes {
        out.push(LOWER[usize::from(b / 16)] as char);
        out.push(LOWER[usize::from(b % 16)] as char);
    }
    out
}
