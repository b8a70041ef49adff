//! Values as the writers of records are given them. A field is as wide as the C function's argument, so that it may lie outside
//! its layout.

/// Kind 0 is absent; what stands beside it is left over.
#[derive(Clone)]
pub struct TentativeValue {
    pub kind: u8,
    pub block: u64,
    pub hash: Vec<u8>,
    pub by: Vec<u8>,
}

/// A number beside has 0 is left over.
#[derive(Clone, Copy)]
pub struct NumberValue {
    pub has: u8,
    pub number: u64,
}

/// An address or hash with no bytes is absent, here and below.
#[derive(Clone)]
pub struct ParkValue {
    pub version: u32,
    pub text: Vec<u8>,
    pub from: Vec<u8>,
    pub sender: Vec<u8>,
    pub chain_id: u64,
    pub gas: u64,
    pub wire: u8,
    pub list: u8,
    pub claimed: u64,
    pub expected: u64,
    pub parked_at: u64,
    pub fidelity: u8,
    pub tentative: TentativeValue,
    pub ticket: u64,
}

#[derive(Clone)]
pub struct EntryValue {
    pub version: u32,
    pub hash: Vec<u8>,
    pub consumed: TentativeValue,
    pub entered_at: u64,
}

#[derive(Clone)]
pub struct ResolveValue {
    pub version: u32,
    pub hash: Vec<u8>,
    pub resolution: u8,
    pub resolved_at: u64,
}

#[derive(Clone)]
pub struct LegacyValue {
    pub frame_hash: Vec<u8>,
    pub top_hash: Vec<u8>,
    pub claimed: NumberValue,
    pub frame_nonce: NumberValue,
    pub top_nonce: NumberValue,
    pub sender: Vec<u8>,
    pub from: Vec<u8>,
    pub expected: NumberValue,
    pub parked_at: NumberValue,
    pub chain_id: NumberValue,
    pub gas: NumberValue,
    pub rest: u8,
    pub tentative: TentativeValue,
    pub ticket: u64,
}

#[derive(Clone)]
pub enum Value {
    Park(ParkValue),
    Entry(EntryValue),
    Resolve(ResolveValue),
    Legacy(LegacyValue),
    Other(u64),
}

impl Value {
    /// The mark of the record that it is written as.
    pub fn mark(&self) -> &'static [u8] {
        match self {
            Value::Park(_) => b"QP",
            Value::Entry(_) => b"QT",
            Value::Resolve(_) => b"QR",
            Value::Legacy(_) => b"QL",
            Value::Other(_) => b"QX",
        }
    }
}
