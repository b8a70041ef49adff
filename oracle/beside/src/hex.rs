//! Lowercase hex digits with no 0x, as the answers print them.

pub fn hex(bytes: &[u8]) -> String {
    alloy::hex::encode(bytes)
}
