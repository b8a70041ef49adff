//! U256: read from digits of a radix and written as hex digits; nothing else of it is used.
use std::fmt;

/// Big-endian.
#[derive(Debug, Clone, Copy, PartialEq, Eq)]
pub struct U256([u8; 32]);

#[derive(Debug, Clone, PartialEq, Eq)]
pub struct ParseError(String);

impl fmt::Display for ParseError {
    fn fmt(&self, f: &mut fmt::Formatter<'_>) -> fmt::Result {
        f.write_str(&self.0)
    }
}

impl std::error::Error for ParseError {}

impl U256 {
    pub const ZERO: Self = U256([0; 32]);

    /// No digit is 0, an underscore is passed over, and a number over 256 bits is an error.
    pub fn from_str_radix(text: &str, radix: u64) -> Result<Self, ParseError> {
        let radix = u32::try_from(radix).map_err(|_| ParseError("radix".to_string()))?;
        let mut bytes = [0u8; 32];
        for c in text.chars().filter(|c| *c != '_') {
            let mut carry = c.to_digit(radix).ok_or_else(|| ParseError(format!("digit {c:?}")))?;
            for b in bytes.iter_mut().rev() {
                carry += u32::from(*b) * radix;
                *b = (carry % 256) as u8;
                carry /= 256;
            }
            if carry != 0 {
                return Err(ParseError("over 256 bits".to_string()));
            }
        }
        Ok(U256(bytes))
    }
}

impl fmt::LowerHex for U256 {
    fn fmt(&self, f: &mut fmt::Formatter<'_>) -> fmt::Result {
        let digits = crate::hex::encode(self.0);
        let shown = digits.trim_start_matches('0');
        f.write_str(if shown.is_empty() { "0" } else { shown })
    }
}
